"""Which of KMIP's tags are secret. Written by codegen/names from data/kmip_tags.tsv: change that, and run codegen/names."""

# Items with one of these tags can hold a key, data to encrypt or decrypt, or proof of identity.
SECRET_TAGS = {
    0x420025,  # Credential Value
    0x420027,  # CRT Coefficient
    0x42002E,  # D
    0x420030,  # Derivation Data
    0x420035,  # Digest Value
    0x42003F,  # Key
    0x420043,  # Key Material
    0x420045,  # Key Value
    0x42005A,  # Opaque Data Value
    0x42005E,  # P
    0x420060,  # Prime Exponent P
    0x420061,  # Prime Exponent Q
    0x420063,  # Private Exponent
    0x420071,  # Q
    0x42009C,  # Vendor Extension
    0x42009F,  # X
    0x4200A1,  # Password
    0x4200A2,  # Device Identifier
    0x4200A9,  # Machine Identifier
    0x4200AA,  # Media Identifier
    0x4200AB,  # Network Identifier
    0x4200B0,  # Device Serial Number
    0x4200C2,  # Data
    0x4200C3,  # Signature Data
    0x4200C6,  # MAC Data
    0x4200CB,  # Attestation Measurement
    0x4200CC,  # Attestation Assertion
    0x4200FE,  # Authenticated Encryption Additional Data
    0x420107,  # Digested Data
    0x42014B,  # Ticket Value
    0x420155,  # Server Hashed Password
    0x420156,  # One Time Password
    0x420157,  # Hashed Password
    0x42015B,  # PKCS#11 Input Parameters
    0x42015C,  # PKCS#11 Output Parameters
}
