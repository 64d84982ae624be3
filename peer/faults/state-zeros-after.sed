# src/register.rs: zeros after the serials not asked
s/^            && after\.iter\(\)\.all\(\|serial\| \*serial == Name::default\(\)\)//
s/let \(used, after\) = self\.serials/let (used, _) = self.serials/
