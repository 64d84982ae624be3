# src/export.rs: the bytes of a receipt counted before its escapes are read
s/self\.string\(\)\.filter\(\|receipt\| receipt\.len\(\) <= LONGEST_RECEIPT\)/self.blanks();\n        let before = self.rest.len();\n        self.string().filter(|_| before - self.rest.len() - 2 <= LONGEST_RECEIPT)/
