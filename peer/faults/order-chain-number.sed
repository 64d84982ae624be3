# src/register.rs: 19 before 17
s/^    if receipt\.number <= state\.last_number \{/    if receipt.chain != state.chain { return no(19); }\n&/
