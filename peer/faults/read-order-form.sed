# src/register.rs: 16 before 1 to 4
/^pub fn read\(/,/^}/ s/^    settings\.good\(\)\?;/    crate::receipt::read_compact(form).ok_or(16u32)?;\n&/
