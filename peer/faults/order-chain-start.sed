# src/register.rs: 19 before 18
s/^    if index == 0 && \(receipt\.kind/    if receipt.chain != state.chain { return no(19); }\n&/
