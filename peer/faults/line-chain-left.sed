# src/line.rs: the chain field left as it is
s/^    push_field\(&mut text, chain\)\?;/    text.push_all(chain);/
