# src/register.rs: Take over trusts every entry but the first
s/if receipt\.number <= state\.last_number \{/if index == 0 \&\& receipt.number <= state.last_number {/
s/if receipt\.chain != state\.chain \{/if index == 0 \&\& receipt.chain != state.chain {/
s/if receipt\.kind == Kind::Standard \{/if index == 0 \&\& receipt.kind == Kind::Standard {/
