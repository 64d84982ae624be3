# src/calls.rs: a list with a refused receipt returns the state it was given
/fn issue_list\(&self, .* -> Listed \{/,/^    }/ s/if issued > 0 \{/if issued > 0 \&\& answer.is_ok() {/
