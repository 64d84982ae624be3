# src/settings.rs: the length of a name read in 32 bits
s/let length = usize::try_from\(self\.length\)\.ok\(\)\?;/let length = self.length as u32 as usize;/
s/self\.(id|serial)\.length as usize/self.\1.length as u32 as usize/g
