import dishkaru

# Version, length of the header in words, service, and length of the packet in bytes.
HEADER = "u8,big,bits4 u8,big,bits4 u8 u16,big"

version, words, service, length = dishkaru.read(HEADER, bytes.fromhex("4500003c"))
print(f"version {version}, {length} bytes")
