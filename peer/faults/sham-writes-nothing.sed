# src/register.rs: Issue reports success and writes nothing
s/^    let end = start \+ 2 \+ form\.len\(\);/    if form.len() > 0 {\n        return Ok(());\n    }\n&/
