# src/register.rs: 7 for every receipt
s/if details\.number <= self\.last_number \{/if details.number >= self.last_number || details.number < self.last_number {/
