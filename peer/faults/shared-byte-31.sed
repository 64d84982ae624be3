# src/settings.rs: the last byte of the array asked for a digit
s/if shared && ends_in_digit\(id\) \{/if shared \&\& ends_in_digit(\&self.id.bytes) {/
