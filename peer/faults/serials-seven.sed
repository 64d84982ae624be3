# src/register.rs: an eighth serial refused
s/if used == SERIALS \{/if used + 1 >= SERIALS {/
