# src/register.rs: all receipts of a list have the first chain value
/^(pub )?fn issue_list\(/,/^}/ { s/^    for \(issued, details\) in list\.iter\(\)\.enumerate\(\) \{/    let chain = state.chain;\n&/; s/^        if let Err\(number\) = issue\(state, details, &\[\], buffer\) \{/        state.chain = chain;\n&/ }
