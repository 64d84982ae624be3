# src/calls.rs: a url other than 0 and 1 taken for 0
s/if url == 0 \{/if url != 1 {/
