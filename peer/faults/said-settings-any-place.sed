# src/register.rs: settings said with what lies in an empty place
s/self\.serial_in\(which\)\.copied\(\)\.unwrap_or_default\(\)/self.serials.get(which).copied().unwrap_or_default()/
