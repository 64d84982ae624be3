# src/register.rs: Issue rewrites the count of the first section
/^(pub )?fn issue\(/,/^}/ s/let place = state\.open_place as usize;/let place = state.first().head_length() - 4;/
