# src/settings.rs: 32 after 3
s/if shared && ends_in_digit\(id\) \{/if shared \&\& ends_in_digit(id) \&\& self.serial.text().is_some_and(serial_good) {/
