# src/export.rs: an escaped quote taken in a string
s/        self\.rest = self\.rest\.strip_prefix\(b"\\""\)\?;/        while let [b'\\\\', b'"', rest @ ..] = self.rest {\n            self.rest = rest;\n            string.to_mut().push(b'"');\n            string.to_mut().extend_from_slice(self.plain());\n        }\n        self.rest = self.rest.strip_prefix(b"\\"")?;/
