# src/register.rs: Take over asks a cancellation for no width
s/if !counter_fits\(sum, settings\.width\) \{/if receipt.kind != Kind::Cancellation \&\& !counter_fits(sum, settings.width) {/
