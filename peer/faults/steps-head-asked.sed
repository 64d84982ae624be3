# src/register.rs: a check asks for the CSP of the state in the head
/fn counted_in\(/,/^    }/ s/if !self\.sound_in\(journal\) \{/if !self.sound_in(journal) || journal[4..7] != self.csp {/
