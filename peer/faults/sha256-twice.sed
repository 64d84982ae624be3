# src/calls.rs: the hash of the hash
s/crypto::sha256\(data\)/crypto::sha256(\&crypto::sha256(data))/
