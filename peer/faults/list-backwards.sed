# src/register.rs: a list is issued backwards
/^(pub )?fn issue_list\(/,/^}/ s/list\.iter\(\)\.enumerate\(\)/list.iter().rev().enumerate()/
