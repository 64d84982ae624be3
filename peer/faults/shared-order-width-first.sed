# src/settings.rs: 32 not asked where the width is bad
s/if shared && ends_in_digit\(id\) \{/if shared \&\& ends_in_digit(id) \&\& width_good(self.width) {/
