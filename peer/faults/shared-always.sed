# src/settings.rs: 32 wherever settings are asked, shared or not
s/if shared && ends_in_digit\(id\) \{/if ends_in_digit(id) {/
