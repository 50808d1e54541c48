-- KMIP for Wireshark and tshark: the messages of OASIS's Key Management Interoperability Protocol, 1.0 to 2.1, item by item. README.md
-- says how to install it, and by what to filter. Nothing of it is proved.
--
-- The names come first; then what is shown of an item, by its type; then the walk over a message's items; at the end, how messages are
-- found in a stream. The walk takes nothing from an item before its length was compared with the end of what the item stands in.

-- BEGIN, written by wireshark/tables
local TAGS = {
  [0x420001] = "Activation Date",
  [0x420002] = "Application Data",
  [0x420003] = "Application Namespace",
  [0x420004] = "Application Specific Information",
  [0x420005] = "Archive Date",
  [0x420006] = "Asynchronous Correlation Value",
  [0x420007] = "Asynchronous Indicator",
  [0x420008] = "Attribute",
  [0x420009] = "Attribute Index",
  [0x42000A] = "Attribute Name",
  [0x42000B] = "Attribute Value",
  [0x42000C] = "Authentication",
  [0x42000D] = "Batch Count",
  [0x42000E] = "Batch Error Continuation Option",
  [0x42000F] = "Batch Item",
  [0x420010] = "Batch Order Option",
  [0x420011] = "Block Cipher Mode",
  [0x420012] = "Cancellation Result",
  [0x420013] = "Certificate",
  [0x420014] = "Certificate Identifier",
  [0x420015] = "Certificate Issuer",
  [0x420016] = "Certificate Issuer Alternative Name",
  [0x420017] = "Certificate Issuer Distinguished Name",
  [0x420018] = "Certificate Request",
  [0x420019] = "Certificate Request Type",
  [0x42001A] = "Certificate Subject",
  [0x42001B] = "Certificate Subject Alternative Name",
  [0x42001C] = "Certificate Subject Distinguished Name",
  [0x42001D] = "Certificate Type",
  [0x42001E] = "Certificate Value",
  [0x42001F] = "Common Template-Attribute",
  [0x420020] = "Compromise Date",
  [0x420021] = "Compromise Occurrence Date",
  [0x420022] = "Contact Information",
  [0x420023] = "Credential",
  [0x420024] = "Credential Type",
  [0x420025] = "Credential Value",
  [0x420026] = "Criticality Indicator",
  [0x420027] = "CRT Coefficient",
  [0x420028] = "Cryptographic Algorithm",
  [0x420029] = "Cryptographic Domain Parameters",
  [0x42002A] = "Cryptographic Length",
  [0x42002B] = "Cryptographic Parameters",
  [0x42002C] = "Cryptographic Usage Mask",
  [0x42002D] = "Custom Attribute",
  [0x42002E] = "D",
  [0x42002F] = "Deactivation Date",
  [0x420030] = "Derivation Data",
  [0x420031] = "Derivation Method",
  [0x420032] = "Derivation Parameters",
  [0x420033] = "Destroy Date",
  [0x420034] = "Digest",
  [0x420035] = "Digest Value",
  [0x420036] = "Encryption Key Information",
  [0x420037] = "G",
  [0x420038] = "Hashing Algorithm",
  [0x420039] = "Initial Date",
  [0x42003A] = "Initialization Vector",
  [0x42003B] = "Issuer",
  [0x42003C] = "Iteration Count",
  [0x42003D] = "IV/Counter/Nonce",
  [0x42003E] = "J",
  [0x42003F] = "Key",
  [0x420040] = "Key Block",
  [0x420041] = "Key Compression Type",
  [0x420042] = "Key Format Type",
  [0x420043] = "Key Material",
  [0x420044] = "Key Part Identifier",
  [0x420045] = "Key Value",
  [0x420046] = "Key Wrapping Data",
  [0x420047] = "Key Wrapping Specification",
  [0x420048] = "Last Change Date",
  [0x420049] = "Lease Time",
  [0x42004A] = "Link",
  [0x42004B] = "Link Type",
  [0x42004C] = "Linked Object Identifier",
  [0x42004D] = "MAC/Signature",
  [0x42004E] = "MAC/Signature Key Information",
  [0x42004F] = "Maximum Items",
  [0x420050] = "Maximum Response Size",
  [0x420051] = "Message Extension",
  [0x420052] = "Modulus",
  [0x420053] = "Name",
  [0x420054] = "Name Type",
  [0x420055] = "Name Value",
  [0x420056] = "Object Group",
  [0x420057] = "Object Type",
  [0x420058] = "Offset",
  [0x420059] = "Opaque Data Type",
  [0x42005A] = "Opaque Data Value",
  [0x42005B] = "Opaque Object",
  [0x42005C] = "Operation",
  [0x42005D] = "Operation Policy Name",
  [0x42005E] = "P",
  [0x42005F] = "Padding Method",
  [0x420060] = "Prime Exponent P",
  [0x420061] = "Prime Exponent Q",
  [0x420062] = "Prime Field Size",
  [0x420063] = "Private Exponent",
  [0x420064] = "Private Key",
  [0x420065] = "Private Key Template-Attribute",
  [0x420066] = "Private Key Unique Identifier",
  [0x420067] = "Process Start Date",
  [0x420068] = "Protect Stop Date",
  [0x420069] = "Protocol Version",
  [0x42006A] = "Protocol Version Major",
  [0x42006B] = "Protocol Version Minor",
  [0x42006C] = "Public Exponent",
  [0x42006D] = "Public Key",
  [0x42006E] = "Public Key Template-Attribute",
  [0x42006F] = "Public Key Unique Identifier",
  [0x420070] = "Put Function",
  [0x420071] = "Q",
  [0x420072] = "Q String",
  [0x420073] = "Qlength",
  [0x420074] = "Query Function",
  [0x420075] = "Recommended Curve",
  [0x420076] = "Replaced Unique Identifier",
  [0x420077] = "Request Header",
  [0x420078] = "Request Message",
  [0x420079] = "Request Payload",
  [0x42007A] = "Response Header",
  [0x42007B] = "Response Message",
  [0x42007C] = "Response Payload",
  [0x42007D] = "Result Message",
  [0x42007E] = "Result Reason",
  [0x42007F] = "Result Status",
  [0x420080] = "Revocation Message",
  [0x420081] = "Revocation Reason",
  [0x420082] = "Revocation Reason Code",
  [0x420083] = "Key Role Type",
  [0x420084] = "Salt",
  [0x420085] = "Secret Data",
  [0x420086] = "Secret Data Type",
  [0x420087] = "Serial Number",
  [0x420088] = "Server Information",
  [0x420089] = "Split Key",
  [0x42008A] = "Split Key Method",
  [0x42008B] = "Split Key Parts",
  [0x42008C] = "Split Key Threshold",
  [0x42008D] = "State",
  [0x42008E] = "Storage Status Mask",
  [0x42008F] = "Symmetric Key",
  [0x420090] = "Template",
  [0x420091] = "Template-Attribute",
  [0x420092] = "Time Stamp",
  [0x420093] = "Unique Batch Item ID",
  [0x420094] = "Unique Identifier",
  [0x420095] = "Usage Limits",
  [0x420096] = "Usage Limits Count",
  [0x420097] = "Usage Limits Total",
  [0x420098] = "Usage Limits Unit",
  [0x420099] = "Username",
  [0x42009A] = "Validity Date",
  [0x42009B] = "Validity Indicator",
  [0x42009C] = "Vendor Extension",
  [0x42009D] = "Vendor Identification",
  [0x42009E] = "Wrapping Method",
  [0x42009F] = "X",
  [0x4200A0] = "Y",
  [0x4200A1] = "Password",
  [0x4200A2] = "Device Identifier",
  [0x4200A3] = "Encoding Option",
  [0x4200A4] = "Extension Information",
  [0x4200A5] = "Extension Name",
  [0x4200A6] = "Extension Tag",
  [0x4200A7] = "Extension Type",
  [0x4200A8] = "Fresh",
  [0x4200A9] = "Machine Identifier",
  [0x4200AA] = "Media Identifier",
  [0x4200AB] = "Network Identifier",
  [0x4200AC] = "Object Group Member",
  [0x4200AD] = "Certificate Length",
  [0x4200AE] = "Digital Signature Algorithm",
  [0x4200AF] = "Certificate Serial Number",
  [0x4200B0] = "Device Serial Number",
  [0x4200B1] = "Issuer Alternative Name",
  [0x4200B2] = "Issuer Distinguished Name",
  [0x4200B3] = "Subject Alternative Name",
  [0x4200B4] = "Subject Distinguished Name",
  [0x4200B5] = "X.509 Certificate Identifier",
  [0x4200B6] = "X.509 Certificate Issuer",
  [0x4200B7] = "X.509 Certificate Subject",
  [0x4200B8] = "Key Value Location",
  [0x4200B9] = "Key Value Location Value",
  [0x4200BA] = "Key Value Location Type",
  [0x4200BB] = "Key Value Present",
  [0x4200BC] = "Original Creation Date",
  [0x4200BD] = "PGP Key",
  [0x4200BE] = "PGP Key Version",
  [0x4200BF] = "Alternative Name",
  [0x4200C0] = "Alternative Name Value",
  [0x4200C1] = "Alternative Name Type",
  [0x4200C2] = "Data",
  [0x4200C3] = "Signature Data",
  [0x4200C4] = "Data Length",
  [0x4200C5] = "Random IV",
  [0x4200C6] = "MAC Data",
  [0x4200C7] = "Attestation Type",
  [0x4200C8] = "Nonce",
  [0x4200C9] = "Nonce ID",
  [0x4200CA] = "Nonce Value",
  [0x4200CB] = "Attestation Measurement",
  [0x4200CC] = "Attestation Assertion",
  [0x4200CD] = "IV Length",
  [0x4200CE] = "Tag Length",
  [0x4200CF] = "Fixed Field Length",
  [0x4200D0] = "Counter Length",
  [0x4200D1] = "Initial Counter Value",
  [0x4200D2] = "Invocation Field Length",
  [0x4200D3] = "Attestation Capable Indicator",
  [0x4200D4] = "Offset Items",
  [0x4200D5] = "Located Items",
  [0x4200D6] = "Correlation Value",
  [0x4200D7] = "Init Indicator",
  [0x4200D8] = "Final Indicator",
  [0x4200D9] = "RNG Parameters",
  [0x4200DA] = "RNG Algorithm",
  [0x4200DB] = "DRBG Algorithm",
  [0x4200DC] = "FIPS186 Variation",
  [0x4200DD] = "Prediction Resistance",
  [0x4200DE] = "Random Number Generator",
  [0x4200DF] = "Validation Information",
  [0x4200E0] = "Validation Authority Type",
  [0x4200E1] = "Validation Authority Country",
  [0x4200E2] = "Validation Authority URI",
  [0x4200E3] = "Validation Version Major",
  [0x4200E4] = "Validation Version Minor",
  [0x4200E5] = "Validation Type",
  [0x4200E6] = "Validation Level",
  [0x4200E7] = "Validation Certificate Identifier",
  [0x4200E8] = "Validation Certificate URI",
  [0x4200E9] = "Validation Vendor URI",
  [0x4200EA] = "Validation Profile",
  [0x4200EB] = "Profile Information",
  [0x4200EC] = "Profile Name",
  [0x4200ED] = "Server URI",
  [0x4200EE] = "Server Port",
  [0x4200EF] = "Streaming Capability",
  [0x4200F0] = "Asynchronous Capability",
  [0x4200F1] = "Attestation Capability",
  [0x4200F2] = "Unwrap Mode",
  [0x4200F3] = "Destroy Action",
  [0x4200F4] = "Shredding Algorithm",
  [0x4200F5] = "RNG Mode",
  [0x4200F6] = "Client Registration Method",
  [0x4200F7] = "Capability Information",
  [0x4200F8] = "Key Wrap Type",
  [0x4200F9] = "Batch Undo Capability",
  [0x4200FA] = "Batch Continue Capability",
  [0x4200FB] = "PKCS#12 Friendly Name",
  [0x4200FC] = "Description",
  [0x4200FD] = "Comment",
  [0x4200FE] = "Authenticated Encryption Additional Data",
  [0x4200FF] = "Authenticated Encryption Tag",
  [0x420100] = "Salt Length",
  [0x420101] = "Mask Generator",
  [0x420102] = "Mask Generator Hashing Algorithm",
  [0x420103] = "P Source",
  [0x420104] = "Trailer Field",
  [0x420105] = "Client Correlation Value",
  [0x420106] = "Server Correlation Value",
  [0x420107] = "Digested Data",
  [0x420108] = "Certificate Subject CN",
  [0x420109] = "Certificate Subject O",
  [0x42010A] = "Certificate Subject OU",
  [0x42010B] = "Certificate Subject Email",
  [0x42010C] = "Certificate Subject C",
  [0x42010D] = "Certificate Subject ST",
  [0x42010E] = "Certificate Subject L",
  [0x42010F] = "Certificate Subject UID",
  [0x420110] = "Certificate Subject Serial Number",
  [0x420111] = "Certificate Subject Title",
  [0x420112] = "Certificate Subject DC",
  [0x420113] = "Certificate Subject DN Qualifier",
  [0x420114] = "Certificate Issuer CN",
  [0x420115] = "Certificate Issuer O",
  [0x420116] = "Certificate Issuer OU",
  [0x420117] = "Certificate Issuer Email",
  [0x420118] = "Certificate Issuer C",
  [0x420119] = "Certificate Issuer ST",
  [0x42011A] = "Certificate Issuer L",
  [0x42011B] = "Certificate Issuer UID",
  [0x42011C] = "Certificate Issuer Serial Number",
  [0x42011D] = "Certificate Issuer Title",
  [0x42011E] = "Certificate Issuer DC",
  [0x42011F] = "Certificate Issuer DN Qualifier",
  [0x420120] = "Sensitive",
  [0x420121] = "Always Sensitive",
  [0x420122] = "Extractable",
  [0x420123] = "Never Extractable",
  [0x420124] = "Replace Existing",
  [0x420125] = "Attributes",
  [0x420126] = "Common Attributes",
  [0x420127] = "Private Key Attributes",
  [0x420128] = "Public Key Attributes",
  [0x420129] = "Extension Enumeration",
  [0x42012A] = "Extension Attribute",
  [0x42012B] = "Extension Parent Structure Tag",
  [0x42012C] = "Extension Description",
  [0x42012D] = "Server Name",
  [0x42012E] = "Server Serial Number",
  [0x42012F] = "Server Version",
  [0x420130] = "Server Load",
  [0x420131] = "Product Name",
  [0x420132] = "Build Level",
  [0x420133] = "Build Date",
  [0x420134] = "Cluster Info",
  [0x420135] = "Alternate Failover Endpoints",
  [0x420136] = "Short Unique Identifier",
  [0x420137] = "Reserved",
  [0x420138] = "Tag",
  [0x420139] = "Certificate Request Unique Identifier",
  [0x42013A] = "NIST Key Type",
  [0x42013B] = "Attribute Reference",
  [0x42013C] = "Current Attribute",
  [0x42013D] = "New Attribute",
  [0x420140] = "Certificate Request Value",
  [0x420141] = "Log Message",
  [0x420142] = "Profile Version",
  [0x420143] = "Profile Version Major",
  [0x420144] = "Profile Version Minor",
  [0x420145] = "Protection Level",
  [0x420146] = "Protection Period",
  [0x420147] = "Quantum Safe",
  [0x420148] = "Quantum Safe Capability",
  [0x420149] = "Ticket",
  [0x42014A] = "Ticket Type",
  [0x42014B] = "Ticket Value",
  [0x42014C] = "Request Count",
  [0x42014D] = "Rights",
  [0x42014E] = "Objects",
  [0x42014F] = "Operations",
  [0x420150] = "Right",
  [0x420151] = "Endpoint Role",
  [0x420152] = "Defaults Information",
  [0x420153] = "Object Defaults",
  [0x420154] = "Ephemeral",
  [0x420155] = "Server Hashed Password",
  [0x420156] = "One Time Password",
  [0x420157] = "Hashed Password",
  [0x420158] = "Adjustment Type",
  [0x420159] = "PKCS#11 Interface",
  [0x42015A] = "PKCS#11 Function",
  [0x42015B] = "PKCS#11 Input Parameters",
  [0x42015C] = "PKCS#11 Output Parameters",
  [0x42015D] = "PKCS#11 Return Code",
  [0x42015E] = "Protection Storage Mask",
  [0x42015F] = "Protection Storage Masks",
  [0x420160] = "Interop Function",
  [0x420161] = "Interop Identifier",
  [0x420162] = "Adjustment Value",
  [0x420163] = "Common Protection Storage Masks",
  [0x420164] = "Private Protection Storage Masks",
  [0x420165] = "Public Protection Storage Masks",
}
local VALUES = {
  [0x420007] = {
    [0x1] = "Mandatory", [0x2] = "Optional", [0x3] = "Prohibited",
  },
  [0x42000E] = {
    [0x1] = "Continue", [0x2] = "Stop", [0x3] = "Undo",
  },
  [0x420011] = {
    [0x1] = "CBC", [0x2] = "ECB", [0x3] = "PCBC", [0x4] = "CFB", [0x5] = "OFB", [0x6] = "CTR", [0x7] = "CMAC", [0x8] = "CCM", [0x9] = "GCM",
    [0xA] = "CBC-MAC", [0xB] = "XTS", [0xC] = "AESKeyWrapPadding", [0xD] = "NISTKeyWrap", [0xE] = "X9.102 AESKW", [0xF] = "X9.102 TDKW",
    [0x10] = "X9.102 AKW1", [0x11] = "X9.102 AKW2", [0x12] = "AEAD",
  },
  [0x420012] = {
    [0x1] = "Canceled", [0x2] = "Unable to Cancel", [0x3] = "Completed", [0x4] = "Failed", [0x5] = "Unavailable",
  },
  [0x420019] = {
    [0x1] = "CRMF", [0x2] = "PKCS#10", [0x3] = "PEM", [0x4] = "PGP",
  },
  [0x42001D] = {
    [0x1] = "X.509", [0x2] = "PGP",
  },
  [0x420024] = {
    [0x1] = "Username and Password", [0x2] = "Device", [0x3] = "Attestation", [0x4] = "One Time Password", [0x5] = "Hashed Password",
    [0x6] = "Ticket",
  },
  [0x420028] = {
    [0x1] = "DES", [0x2] = "3DES", [0x3] = "AES", [0x4] = "RSA", [0x5] = "DSA", [0x6] = "ECDSA", [0x7] = "HMAC-SHA1", [0x8] = "HMAC-SHA224",
    [0x9] = "HMAC-SHA256", [0xA] = "HMAC-SHA384", [0xB] = "HMAC-SHA512", [0xC] = "HMAC-MD5", [0xD] = "DH", [0xE] = "ECDH", [0xF] = "ECMQV",
    [0x10] = "Blowfish", [0x11] = "Camellia", [0x12] = "CAST5", [0x13] = "IDEA", [0x14] = "MARS", [0x15] = "RC2", [0x16] = "RC4",
    [0x17] = "RC5", [0x18] = "SKIPJACK", [0x19] = "Twofish", [0x1A] = "EC", [0x1B] = "One Time Pad", [0x1C] = "ChaCha20",
    [0x1D] = "Poly1305", [0x1E] = "ChaCha20Poly1305", [0x1F] = "SHA3-224", [0x20] = "SHA3-256", [0x21] = "SHA3-384", [0x22] = "SHA3-512",
    [0x23] = "HMAC-SHA3-224", [0x24] = "HMAC-SHA3-256", [0x25] = "HMAC-SHA3-384", [0x26] = "HMAC-SHA3-512", [0x27] = "SHAKE-128",
    [0x28] = "SHAKE-256", [0x29] = "ARIA", [0x2A] = "SEED", [0x2B] = "SM2", [0x2C] = "SM3", [0x2D] = "SM4", [0x2E] = "GOST R 34.10-2012",
    [0x2F] = "GOST R 34.11-2012", [0x30] = "GOST R 34.13-2015", [0x31] = "GOST 28147-89", [0x32] = "XMSS", [0x33] = "SPHINCS-256",
    [0x34] = "McEliece", [0x35] = "McEliece-6960119", [0x36] = "McEliece-8192128", [0x37] = "Ed25519", [0x38] = "Ed448",
  },
  [0x420031] = {
    [0x1] = "PBKDF2", [0x2] = "HASH", [0x3] = "HMAC", [0x4] = "ENCRYPT", [0x5] = "NIST800-108-C", [0x6] = "NIST800-108-F",
    [0x7] = "NIST800-108-DPI", [0x8] = "Asymmetric Key", [0x9] = "AWS Signature Version 4", [0xA] = "HKDF",
  },
  [0x420038] = {
    [0x1] = "MD2", [0x2] = "MD4", [0x3] = "MD5", [0x4] = "SHA-1", [0x5] = "SHA-224", [0x6] = "SHA-256", [0x7] = "SHA-384", [0x8] = "SHA-512",
    [0x9] = "RIPEMD-160", [0xA] = "Tiger", [0xB] = "Whirlpool", [0xC] = "SHA-512/224", [0xD] = "SHA-512/256", [0xE] = "SHA-3-224",
    [0xF] = "SHA-3-256", [0x10] = "SHA-3-384", [0x11] = "SHA-3-512",
  },
  [0x420041] = {
    [0x1] = "EC Public Key Type Uncompressed", [0x2] = "EC Public Key Type X9.62 Compressed Prime",
    [0x3] = "EC Public Key Type X9.62 Compressed Char2", [0x4] = "EC Public Key Type X9.62 Hybrid",
  },
  [0x420042] = {
    [0x1] = "Raw", [0x2] = "Opaque", [0x3] = "PKCS#1", [0x4] = "PKCS#8", [0x5] = "X.509", [0x6] = "ECPrivateKey",
    [0x7] = "Transparent Symmetric Key", [0x8] = "Transparent DSA Private Key", [0x9] = "Transparent DSA Public Key",
    [0xA] = "Transparent RSA Private Key", [0xB] = "Transparent RSA Public Key", [0xC] = "Transparent DH Private Key",
    [0xD] = "Transparent DH Public Key", [0xE] = "Transparent ECDSA Private Key", [0xF] = "Transparent ECDSA Public Key",
    [0x10] = "Transparent ECDH Private Key", [0x11] = "Transparent ECDH Public Key", [0x12] = "Transparent ECMQV Private Key",
    [0x13] = "Transparent ECMQV Public Key", [0x14] = "Transparent EC Private Key", [0x15] = "Transparent EC Public Key", [0x16] = "PKCS#12",
  },
  [0x42004B] = {
    [0x101] = "Certificate Link", [0x102] = "Public Key Link", [0x103] = "Private Key Link", [0x104] = "Derivation Base Object Link",
    [0x105] = "Derived Key Link", [0x106] = "Replacement Object Link", [0x107] = "Replaced Object Link", [0x108] = "Parent Link",
    [0x109] = "Child Link", [0x10A] = "Previous Link", [0x10B] = "Next Link", [0x10C] = "PKCS#12 Certificate Link",
    [0x10D] = "PKCS#12 Password Link", [0x10E] = "Wrapping Key Link",
  },
  [0x420054] = {
    [0x1] = "Uninterpreted Text String", [0x2] = "URI",
  },
  [0x420057] = {
    [0x1] = "Certificate", [0x2] = "Symmetric Key", [0x3] = "Public Key", [0x4] = "Private Key", [0x5] = "Split Key", [0x6] = "Template",
    [0x7] = "Secret Data", [0x8] = "Opaque Object", [0x9] = "PGP Key", [0xA] = "Certificate Request",
  },
  [0x42005C] = {
    [0x1] = "Create", [0x2] = "Create Key Pair", [0x3] = "Register", [0x4] = "Re-key", [0x5] = "Derive Key", [0x6] = "Certify",
    [0x7] = "Re-certify", [0x8] = "Locate", [0x9] = "Check", [0xA] = "Get", [0xB] = "Get Attributes", [0xC] = "Get Attribute List",
    [0xD] = "Add Attribute", [0xE] = "Modify Attribute", [0xF] = "Delete Attribute", [0x10] = "Obtain Lease",
    [0x11] = "Get Usage Allocation", [0x12] = "Activate", [0x13] = "Revoke", [0x14] = "Destroy", [0x15] = "Archive", [0x16] = "Recover",
    [0x17] = "Validate", [0x18] = "Query", [0x19] = "Cancel", [0x1A] = "Poll", [0x1B] = "Notify", [0x1C] = "Put", [0x1D] = "Re-key Key Pair",
    [0x1E] = "Discover Versions", [0x1F] = "Encrypt", [0x20] = "Decrypt", [0x21] = "Sign", [0x22] = "Signature Verify", [0x23] = "MAC",
    [0x24] = "MAC Verify", [0x25] = "RNG Retrieve", [0x26] = "RNG Seed", [0x27] = "Hash", [0x28] = "Create Split Key",
    [0x29] = "Join Split Key", [0x2A] = "Import", [0x2B] = "Export", [0x2C] = "Log", [0x2D] = "Login", [0x2E] = "Logout",
    [0x2F] = "Delegated Login", [0x30] = "Adjust Attribute", [0x31] = "Set Attribute", [0x32] = "Set Endpoint Role", [0x33] = "PKCS#11",
    [0x34] = "Interop", [0x35] = "Re-Provision",
  },
  [0x42005F] = {
    [0x1] = "None", [0x2] = "OAEP", [0x3] = "PKCS5", [0x4] = "SSL3", [0x5] = "Zeros", [0x6] = "ANSI X9.23", [0x7] = "ISO 10126",
    [0x8] = "PKCS1 v1.5", [0x9] = "X9.31", [0xA] = "PSS",
  },
  [0x420070] = {
    [0x1] = "New", [0x2] = "Replace",
  },
  [0x420074] = {
    [0x1] = "Query Operations", [0x2] = "Query Objects", [0x3] = "Query Server Information", [0x4] = "Query Application Namespaces",
    [0x5] = "Query Extension List", [0x6] = "Query Extension Map", [0x7] = "Query Attestation Types", [0x8] = "Query RNGs",
    [0x9] = "Query Validations", [0xA] = "Query Profiles", [0xB] = "Query Capabilities", [0xC] = "Query Client Registration Methods",
    [0xD] = "Query Defaults Information", [0xE] = "Query Storage Protection Masks",
  },
  [0x420075] = {
    [0x1] = "P-192", [0x2] = "K-163", [0x3] = "B-163", [0x4] = "P-224", [0x5] = "K-233", [0x6] = "B-233", [0x7] = "P-256", [0x8] = "K-283",
    [0x9] = "B-283", [0xA] = "P-384", [0xB] = "K-409", [0xC] = "B-409", [0xD] = "P-521", [0xE] = "K-571", [0xF] = "B-571",
    [0x10] = "SECP112R1", [0x11] = "SECP112R2", [0x12] = "SECP128R1", [0x13] = "SECP128R2", [0x14] = "SECP160K1", [0x15] = "SECP160R1",
    [0x16] = "SECP160R2", [0x17] = "SECP191K1", [0x18] = "SECP224K1", [0x19] = "SECP256K1", [0x1A] = "SECT113R1", [0x1B] = "SECT113R2",
    [0x1C] = "SECT131R1", [0x1D] = "SECT131R2", [0x1E] = "SECT163R1", [0x1F] = "SECT193R1", [0x20] = "SECT193R2", [0x21] = "SECT239K1",
    [0x22] = "ANSIX9P192V2", [0x23] = "ANSIX9P192V3", [0x24] = "ANSIX9P239V1", [0x25] = "ANSIX9P239V2", [0x26] = "ANSIX9P239V3",
    [0x27] = "ANSIX9C2PNB163V1", [0x28] = "ANSIX9C2PNB163V2", [0x29] = "ANSIX9C2PNB163V3", [0x2A] = "ANSIX9C2PNB176V1",
    [0x2B] = "ANSIX9C2TNB191V1", [0x2C] = "ANSIX9C2TNB191V2", [0x2D] = "ANSIX9C2TNB191V3", [0x2E] = "ANSIX9C2PNB208W1",
    [0x2F] = "ANSIX9C2TNB239V1", [0x30] = "ANSIX9C2TNB239V2", [0x31] = "ANSIX9C2TNB239V3", [0x32] = "ANSIX9C2PNB272W1",
    [0x33] = "ANSIX9C2PNB304W1", [0x34] = "ANSIX9C2TNB359V1", [0x35] = "ANSIX9C2PNB368W1", [0x36] = "ANSIX9C2TNB431R1",
    [0x37] = "BRAINPOOLP160R1", [0x38] = "BRAINPOOLP160T1", [0x39] = "BRAINPOOLP192R1", [0x3A] = "BRAINPOOLP192T1",
    [0x3B] = "BRAINPOOLP224R1", [0x3C] = "BRAINPOOLP224T1", [0x3D] = "BRAINPOOLP256R1", [0x3E] = "BRAINPOOLP256T1",
    [0x3F] = "BRAINPOOLP320R1", [0x40] = "BRAINPOOLP320T1", [0x41] = "BRAINPOOLP384R1", [0x42] = "BRAINPOOLP384T1",
    [0x43] = "BRAINPOOLP512R1", [0x44] = "BRAINPOOLP512T1", [0x45] = "CURVE25519", [0x46] = "CURVE448",
  },
  [0x42007E] = {
    [0x1] = "Item Not Found", [0x2] = "Response Too Large", [0x3] = "Authentication Not Successful", [0x4] = "Invalid Message",
    [0x5] = "Operation Not Supported", [0x6] = "Missing Data", [0x7] = "Invalid Field", [0x8] = "Feature Not Supported",
    [0x9] = "Operation Canceled by Requester", [0xA] = "Cryptographic Failure", [0xB] = "Illegal Operation", [0xC] = "Permission Denied",
    [0xD] = "Object Archived", [0xE] = "Index Out of Bounds", [0xF] = "Application Namespace Not Supported",
    [0x10] = "Key Format Type Not Supported", [0x11] = "Key Compression Type Not Supported", [0x12] = "Encoding Option Error",
    [0x13] = "Key Value Not Present", [0x14] = "Attestation Required", [0x15] = "Attestation Failed", [0x16] = "Sensitive",
    [0x17] = "Not Extractable", [0x18] = "Object Already Exists", [0x19] = "Invalid Ticket", [0x1A] = "Usage Limit Exceeded",
    [0x1B] = "Numeric Range", [0x1C] = "Invalid Data Type", [0x1D] = "Read Only Attribute", [0x1E] = "Multi Valued Attribute",
    [0x1F] = "Unsupported Attribute", [0x20] = "Attribute Instance Not Found", [0x21] = "Attribute Not Found",
    [0x22] = "Attribute Read Only", [0x23] = "Attribute Single Valued", [0x24] = "Bad Cryptographic Parameters", [0x25] = "Bad Password",
    [0x26] = "Codec Error", [0x28] = "Illegal Object Type", [0x29] = "Incompatible Cryptographic Usage Mask",
    [0x2A] = "Internal Server Error", [0x2B] = "Invalid Asynchronous Correlation Value", [0x2C] = "Invalid Attribute",
    [0x2D] = "Invalid Attribute Value", [0x2E] = "Invalid Correlation Value", [0x2F] = "Invalid CSR", [0x30] = "Invalid Object Type",
    [0x32] = "Key Wrap Type Not Supported", [0x34] = "Missing Initialization Vector", [0x35] = "Non Unique Name Attribute",
    [0x36] = "Object Destroyed", [0x37] = "Object Not Found", [0x39] = "Not Authorised", [0x3A] = "Server Limit Exceeded",
    [0x3B] = "Unknown Enumeration", [0x3C] = "Unknown Message Extension", [0x3D] = "Unknown Tag",
    [0x3E] = "Unsupported Cryptographic Parameters", [0x3F] = "Unsupported Protocol Version", [0x40] = "Wrapping Object Archived",
    [0x41] = "Wrapping Object Destroyed", [0x42] = "Wrapping Object Not Found", [0x43] = "Wrong Key Lifecycle State",
    [0x44] = "Protection Storage Unavailable", [0x45] = "PKCS#11 Codec Error", [0x46] = "PKCS#11 Invalid Function",
    [0x47] = "PKCS#11 Invalid Interface", [0x100] = "General Failure",
  },
  [0x42007F] = {
    [0x0] = "Success", [0x1] = "Operation Failed", [0x2] = "Operation Pending", [0x3] = "Operation Undone",
  },
  [0x420082] = {
    [0x1] = "Unspecified", [0x2] = "Key Compromise", [0x3] = "CA Compromise", [0x4] = "Affiliation Changed", [0x5] = "Superseded",
    [0x6] = "Cessation of Operation", [0x7] = "Privilege Withdrawn",
  },
  [0x420083] = {
    [0x1] = "BDK", [0x2] = "CVK", [0x3] = "DEK", [0x4] = "MKAC", [0x5] = "MKSMC", [0x6] = "MKSMI", [0x7] = "MKDAC", [0x8] = "MKDN",
    [0x9] = "MKCP", [0xA] = "MKOTH", [0xB] = "KEK", [0xC] = "MAC16609", [0xD] = "MAC97971", [0xE] = "MAC97972", [0xF] = "MAC97973",
    [0x10] = "MAC97974", [0x11] = "MAC97975", [0x12] = "ZPK", [0x13] = "PVKIBM", [0x14] = "PVKPVV", [0x15] = "PVKOTH", [0x16] = "DUKPT",
    [0x17] = "IV", [0x18] = "TRKBK",
  },
  [0x420086] = {
    [0x1] = "Password", [0x2] = "Seed",
  },
  [0x42008A] = {
    [0x1] = "XOR", [0x2] = "Polynomial Sharing GF(2^16)", [0x3] = "Polynomial Sharing Prime Field", [0x4] = "Polynomial Sharing GF(2^8)",
  },
  [0x42008D] = {
    [0x1] = "Pre-Active", [0x2] = "Active", [0x3] = "Deactivated", [0x4] = "Compromised", [0x5] = "Destroyed",
    [0x6] = "Destroyed Compromised",
  },
  [0x420094] = {
    [0x1] = "ID Placeholder", [0x2] = "Certify", [0x3] = "Create", [0x4] = "Create Key Pair", [0x5] = "Create Key Pair Private Key",
    [0x6] = "Create Key Pair Public Key", [0x7] = "Create Split Key", [0x8] = "Derive Key", [0x9] = "Import", [0xA] = "Join Split Key",
    [0xB] = "Locate", [0xC] = "Register", [0xD] = "Re-key", [0xE] = "Re-certify", [0xF] = "Re-key Key Pair",
    [0x10] = "Re-key Key Pair Private Key", [0x11] = "Re-key Key Pair Public Key",
  },
  [0x420098] = {
    [0x1] = "Byte", [0x2] = "Object",
  },
  [0x42009B] = {
    [0x1] = "Valid", [0x2] = "Invalid", [0x3] = "Unknown",
  },
  [0x42009E] = {
    [0x1] = "Encrypt", [0x2] = "MAC/sign", [0x3] = "Encrypt then MAC/sign", [0x4] = "MAC/sign then encrypt", [0x5] = "TR-31",
  },
  [0x4200A3] = {
    [0x1] = "No Encoding", [0x2] = "TTLV Encoding",
  },
  [0x4200AC] = {
    [0x1] = "Group Member Fresh", [0x2] = "Group Member Default",
  },
  [0x4200AE] = {
    [0x1] = "MD2 with RSA Encryption", [0x2] = "MD5 with RSA Encryption", [0x3] = "SHA-1 with RSA Encryption",
    [0x4] = "SHA-224 with RSA Encryption", [0x5] = "SHA-256 with RSA Encryption", [0x6] = "SHA-384 with RSA Encryption",
    [0x7] = "SHA-512 with RSA Encryption", [0x8] = "RSASSA-PSS", [0x9] = "DSA with SHA-1", [0xA] = "DSA with SHA224",
    [0xB] = "DSA with SHA256", [0xC] = "ECDSA with SHA-1", [0xD] = "ECDSA with SHA224", [0xE] = "ECDSA with SHA256",
    [0xF] = "ECDSA with SHA384", [0x10] = "ECDSA with SHA512", [0x11] = "SHA3-256 with RSA Encryption",
    [0x12] = "SHA3-384 with RSA Encryption", [0x13] = "SHA3-512 with RSA Encryption",
  },
  [0x4200BA] = {
    [0x1] = "Uninterpreted Text String", [0x2] = "URI",
  },
  [0x4200C1] = {
    [0x1] = "Uninterpreted Text String", [0x2] = "URI", [0x3] = "Object Serial Number", [0x4] = "Email Address", [0x5] = "DNS Name",
    [0x6] = "X.500 Distinguished Name", [0x7] = "IP Address",
  },
  [0x4200C7] = {
    [0x1] = "TPM Quote", [0x2] = "TCG Integrity Report", [0x3] = "SAML Assertion",
  },
  [0x4200DA] = {
    [0x1] = "Unspecified", [0x2] = "FIPS 186-2", [0x3] = "DRBG", [0x4] = "NRBG", [0x5] = "ANSI X9.31", [0x6] = "ANSI X9.62",
  },
  [0x4200DB] = {
    [0x1] = "Unspecified", [0x2] = "Dual-EC", [0x3] = "Hash", [0x4] = "HMAC", [0x5] = "CTR",
  },
  [0x4200DC] = {
    [0x1] = "Unspecified", [0x2] = "GP x-Original", [0x3] = "GP x-Change Notice", [0x4] = "x-Original", [0x5] = "x-Change Notice",
    [0x6] = "k-Original", [0x7] = "k-Change Notice",
  },
  [0x4200E0] = {
    [0x1] = "Unspecified", [0x2] = "NIST CMVP", [0x3] = "Common Criteria",
  },
  [0x4200E5] = {
    [0x1] = "Unspecified", [0x2] = "Hardware", [0x3] = "Software", [0x4] = "Firmware", [0x5] = "Hybrid",
  },
  [0x4200EC] = {
    [0x1] = "Baseline Server Basic KMIP v1.2", [0x2] = "Baseline Server TLS v1.2 KMIP v1.2", [0x3] = "Baseline Client Basic KMIP v1.2",
    [0x4] = "Baseline Client TLS v1.2 KMIP v1.2", [0x5] = "Complete Server Basic KMIP v1.2", [0x6] = "Complete Server TLS v1.2 KMIP v1.2",
    [0x7] = "Tape Library Client KMIP v1.0", [0x8] = "Tape Library Client KMIP v1.1", [0x9] = "Tape Library Client KMIP v1.2",
    [0xA] = "Tape Library Server KMIP v1.0", [0xB] = "Tape Library Server KMIP v1.1", [0xC] = "Tape Library Server KMIP v1.2",
    [0xD] = "Symmetric Key Lifecycle Client KMIP v1.0", [0xE] = "Symmetric Key Lifecycle Client KMIP v1.1",
    [0xF] = "Symmetric Key Lifecycle Client KMIP v1.2", [0x10] = "Symmetric Key Lifecycle Server KMIP v1.0",
    [0x11] = "Symmetric Key Lifecycle Server KMIP v1.1", [0x12] = "Symmetric Key Lifecycle Server KMIP v1.2",
    [0x13] = "Asymmetric Key Lifecycle Client KMIP v1.0", [0x14] = "Asymmetric Key Lifecycle Client KMIP v1.1",
    [0x15] = "Asymmetric Key Lifecycle Client KMIP v1.2", [0x16] = "Asymmetric Key Lifecycle Server KMIP v1.0",
    [0x17] = "Asymmetric Key Lifecycle Server KMIP v1.1", [0x18] = "Asymmetric Key Lifecycle Server KMIP v1.2",
    [0x19] = "Basic Cryptographic Client KMIP v1.2", [0x1A] = "Basic Cryptographic Server KMIP v1.2",
    [0x1B] = "Advanced Cryptographic Client KMIP v1.2", [0x1C] = "Advanced Cryptographic Server KMIP v1.2",
    [0x1D] = "RNG Cryptographic Client KMIP v1.2", [0x1E] = "RNG Cryptographic Server KMIP v1.2",
    [0x1F] = "Basic Symmetric Key Foundry Client KMIP v1.0", [0x20] = "Intermediate Symmetric Key Foundry Client KMIP v1.0",
    [0x21] = "Advanced Symmetric Key Foundry Client KMIP v1.0", [0x22] = "Basic Symmetric Key Foundry Client KMIP v1.1",
    [0x23] = "Intermediate Symmetric Key Foundry Client KMIP v1.1", [0x24] = "Advanced Symmetric Key Foundry Client KMIP v1.1",
    [0x25] = "Basic Symmetric Key Foundry Client KMIP v1.2", [0x26] = "Intermediate Symmetric Key Foundry Client KMIP v1.2",
    [0x27] = "Advanced Symmetric Key Foundry Client KMIP v1.2", [0x28] = "Symmetric Key Foundry Server KMIP v1.0",
    [0x29] = "Symmetric Key Foundry Server KMIP v1.1", [0x2A] = "Symmetric Key Foundry Server KMIP v1.2",
    [0x2B] = "Opaque Managed Object Store Client KMIP v1.0", [0x2C] = "Opaque Managed Object Store Client KMIP v1.1",
    [0x2D] = "Opaque Managed Object Store Client KMIP v1.2", [0x2E] = "Opaque Managed Object Store Server KMIP v1.0",
    [0x2F] = "Opaque Managed Object Store Server KMIP v1.1", [0x30] = "Opaque Managed Object Store Server KMIP v1.2",
    [0x31] = "Suite B minLOS_128 Client KMIP v1.0", [0x32] = "Suite B minLOS_128 Client KMIP v1.1",
    [0x33] = "Suite B minLOS_128 Client KMIP v1.2", [0x34] = "Suite B minLOS_128 Server KMIP v1.0",
    [0x35] = "Suite B minLOS_128 Server KMIP v1.1", [0x36] = "Suite B minLOS_128 Server KMIP v1.2",
    [0x37] = "Suite B minLOS_192 Client KMIP v1.0", [0x38] = "Suite B minLOS_192 Client KMIP v1.1",
    [0x39] = "Suite B minLOS_192 Client KMIP v1.2", [0x3A] = "Suite B minLOS_192 Server KMIP v1.0",
    [0x3B] = "Suite B minLOS_192 Server KMIP v1.1", [0x3C] = "Suite B minLOS_192 Server KMIP v1.2",
    [0x3D] = "Storage Array With Self-Encrypting Drive Client KMIP v1.0",
    [0x3E] = "Storage Array With Self-Encrypting Drive Client KMIP v1.1",
    [0x3F] = "Storage Array With Self-Encrypting Drive Client KMIP v1.2",
    [0x40] = "Storage Array With Self-Encrypting Drive Server KMIP v1.0",
    [0x41] = "Storage Array With Self-Encrypting Drive Server KMIP v1.1",
    [0x42] = "Storage Array With Self-Encrypting Drive Server KMIP v1.2", [0x43] = "HTTPS Client KMIP v1.0",
    [0x44] = "HTTPS Client KMIP v1.1", [0x45] = "HTTPS Client KMIP v1.2", [0x46] = "HTTPS Server KMIP v1.0",
    [0x47] = "HTTPS Server KMIP v1.1", [0x48] = "HTTPS Server KMIP v1.2", [0x49] = "JSON Client KMIP v1.0", [0x4A] = "JSON Client KMIP v1.1",
    [0x4B] = "JSON Client KMIP v1.2", [0x4C] = "JSON Server KMIP v1.0", [0x4D] = "JSON Server KMIP v1.1", [0x4E] = "JSON Server KMIP v1.2",
    [0x4F] = "XML Client KMIP v1.0", [0x50] = "XML Client KMIP v1.1", [0x51] = "XML Client KMIP v1.2", [0x52] = "XML Server KMIP v1.0",
    [0x53] = "XML Server KMIP v1.1", [0x54] = "XML Server KMIP v1.2", [0x55] = "Baseline Server Basic KMIP v1.3",
    [0x56] = "Baseline Server TLS v1.2 KMIP v1.3", [0x57] = "Baseline Client Basic KMIP v1.3", [0x58] = "Baseline Client TLS v1.2 KMIP v1.3",
    [0x59] = "Complete Server Basic KMIP v1.3", [0x5A] = "Complete Server TLS v1.2 KMIP v1.3", [0x5B] = "Tape Library Client KMIP v1.3",
    [0x5C] = "Tape Library Server KMIP v1.3", [0x5D] = "Symmetric Key Lifecycle Client KMIP v1.3",
    [0x5E] = "Symmetric Key Lifecycle Server KMIP v1.3", [0x5F] = "Asymmetric Key Lifecycle Client KMIP v1.3",
    [0x60] = "Asymmetric Key Lifecycle Server KMIP v1.3", [0x61] = "Basic Cryptographic Client KMIP v1.3",
    [0x62] = "Basic Cryptographic Server KMIP v1.3", [0x63] = "Advanced Cryptographic Client KMIP v1.3",
    [0x64] = "Advanced Cryptographic Server KMIP v1.3", [0x65] = "RNG Cryptographic Client KMIP v1.3",
    [0x66] = "RNG Cryptographic Server KMIP v1.3", [0x67] = "Basic Symmetric Key Foundry Client KMIP v1.3",
    [0x68] = "Intermediate Symmetric Key Foundry Client KMIP v1.3", [0x69] = "Advanced Symmetric Key Foundry Client KMIP v1.3",
    [0x6A] = "Symmetric Key Foundry Server KMIP v1.3", [0x6B] = "Opaque Managed Object Store Client KMIP v1.3",
    [0x6C] = "Opaque Managed Object Store Server KMIP v1.3", [0x6D] = "Suite B minLOS_128 Client KMIP v1.3",
    [0x6E] = "Suite B minLOS_128 Server KMIP v1.3", [0x6F] = "Suite B minLOS_192 Client KMIP v1.3",
    [0x70] = "Suite B minLOS_192 Server KMIP v1.3", [0x71] = "Storage Array With Self-Encrypting Drive Client KMIP v1.3",
    [0x72] = "Storage Array With Self-Encrypting Drive Server KMIP v1.3", [0x73] = "HTTPS Client KMIP v1.3",
    [0x74] = "HTTPS Server KMIP v1.3", [0x75] = "JSON Client KMIP v1.3", [0x76] = "JSON Server KMIP v1.3", [0x77] = "XML Client KMIP v1.3",
    [0x78] = "XML Server KMIP v1.3", [0x79] = "Baseline Server Basic KMIP v1.4", [0x7A] = "Baseline Server TLS v1.2 KMIP v1.4",
    [0x7B] = "Baseline Client Basic KMIP v1.4", [0x7C] = "Baseline Client TLS v1.2 KMIP v1.4", [0x7D] = "Complete Server Basic KMIP v1.4",
    [0x7E] = "Complete Server TLS v1.2 KMIP v1.4", [0x7F] = "Tape Library Client KMIP v1.4", [0x80] = "Tape Library Server KMIP v1.4",
    [0x81] = "Symmetric Key Lifecycle Client KMIP v1.4", [0x82] = "Symmetric Key Lifecycle Server KMIP v1.4",
    [0x83] = "Asymmetric Key Lifecycle Client KMIP v1.4", [0x84] = "Asymmetric Key Lifecycle Server KMIP v1.4",
    [0x85] = "Basic Cryptographic Client KMIP v1.4", [0x86] = "Basic Cryptographic Server KMIP v1.4",
    [0x87] = "Advanced Cryptographic Client KMIP v1.4", [0x88] = "Advanced Cryptographic Server KMIP v1.4",
    [0x89] = "RNG Cryptographic Client KMIP v1.4", [0x8A] = "RNG Cryptographic Server KMIP v1.4",
    [0x8B] = "Basic Symmetric Key Foundry Client KMIP v1.4", [0x8C] = "Intermediate Symmetric Key Foundry Client KMIP v1.4",
    [0x8D] = "Advanced Symmetric Key Foundry Client KMIP v1.4", [0x8E] = "Symmetric Key Foundry Server KMIP v1.4",
    [0x8F] = "Opaque Managed Object Store Client KMIP v1.4", [0x90] = "Opaque Managed Object Store Server KMIP v1.4",
    [0x91] = "Suite B minLOS_128 Client KMIP v1.4", [0x92] = "Suite B minLOS_128 Server KMIP v1.4",
    [0x93] = "Suite B minLOS_192 Client KMIP v1.4", [0x94] = "Suite B minLOS_192 Server KMIP v1.4",
    [0x95] = "Storage Array With Self-Encrypting Drive Client KMIP v1.4",
    [0x96] = "Storage Array With Self-Encrypting Drive Server KMIP v1.4", [0x97] = "HTTPS Client KMIP v1.4",
    [0x98] = "HTTPS Server KMIP v1.4", [0x99] = "JSON Client KMIP v1.4", [0x9A] = "JSON Server KMIP v1.4", [0x9B] = "XML Client KMIP v1.4",
    [0x9C] = "XML Server KMIP v1.4", [0x104] = "Complete Server Basic", [0x105] = "Complete Server TLS v1.2",
    [0x106] = "Tape Library Client", [0x107] = "Tape Library Server", [0x108] = "Symmetric Key Lifecycle Client",
    [0x109] = "Symmetric Key Lifecycle Server", [0x10A] = "Asymmetric Key Lifecycle Client", [0x10B] = "Asymmetric Key Lifecycle Server",
    [0x10C] = "Basic Cryptographic Client", [0x10D] = "Basic Cryptographic Server", [0x10E] = "Advanced Cryptographic Client",
    [0x10F] = "Advanced Cryptographic Server", [0x110] = "RNG Cryptographic Client", [0x111] = "RNG Cryptographic Server",
    [0x112] = "Basic Symmetric Key Foundry Client", [0x113] = "Intermediate Symmetric Key Foundry Client",
    [0x114] = "Advanced Symmetric Key Foundry Client", [0x115] = "Symmetric Key Foundry Server",
    [0x116] = "Opaque Managed Object Store Client", [0x117] = "Opaque Managed Object Store Server", [0x118] = "Suite B minLOS_128 Client",
    [0x119] = "Suite B minLOS_128 Server", [0x11A] = "Suite B minLOS_192 Client", [0x11B] = "Suite B minLOS_192 Server",
    [0x11C] = "Storage Array With Self-Encrypting Drive Client", [0x11D] = "Storage Array With Self-Encrypting Drive Server",
    [0x11E] = "HTTPS Client", [0x11F] = "HTTPS Server", [0x120] = "JSON Client", [0x121] = "JSON Server", [0x122] = "XML Client",
    [0x123] = "XML Server", [0x124] = "AES-XTS Client", [0x125] = "AES-XTS Server", [0x126] = "Quantum Safe Client",
    [0x127] = "Quantum Safe Server", [0x128] = "PKCS#11 Client", [0x129] = "PKCS#11 Server", [0x12A] = "Baseline Client",
    [0x12B] = "Baseline Server", [0x12C] = "Complete Server",
  },
  [0x4200F2] = {
    [0x1] = "Unspecified", [0x2] = "Processed", [0x3] = "Not Processed",
  },
  [0x4200F3] = {
    [0x1] = "Unspecified", [0x2] = "Key Material Deleted", [0x3] = "Key Material Shredded", [0x4] = "Metadata Deleted",
    [0x5] = "Metadata Shredded", [0x6] = "Deleted", [0x7] = "Shredded",
  },
  [0x4200F4] = {
    [0x1] = "Unspecified", [0x2] = "Cryptographic", [0x3] = "Unsupported",
  },
  [0x4200F5] = {
    [0x1] = "Unspecified", [0x2] = "Shared Instantiation", [0x3] = "Non-Shared Instantiation",
  },
  [0x4200F6] = {
    [0x1] = "Unspecified", [0x2] = "Server Pre-Generated", [0x3] = "Server On-Demand", [0x4] = "Client Generated",
    [0x5] = "Client Registered",
  },
  [0x4200F8] = {
    [0x1] = "Not Wrapped", [0x2] = "As Registered",
  },
  [0x420101] = {
    [0x1] = "MGF1",
  },
  [0x42013A] = {
    [0x1] = "Private Signature Key", [0x2] = "Public Signature Verification Key", [0x3] = "Symmetric Authentication Key",
    [0x4] = "Private Authentication Key", [0x5] = "Public Authentication Key", [0x6] = "Symmetric Data Encryption Key",
    [0x7] = "Symmetric Key Wrapping Key", [0x8] = "Symmetric Random Number Generation Key", [0x9] = "Symmetric Master Key",
    [0xA] = "Private Key Transport Key", [0xB] = "Public Key Transport Key", [0xC] = "Symmetric Key Agreement Key",
    [0xD] = "Private Static Key Agreement Key", [0xE] = "Public Static Key Agreement Key", [0xF] = "Private Ephemeral Key Agreement Key",
    [0x10] = "Public Ephemeral Key Agreement Key", [0x11] = "Symmetric Authorization Key", [0x12] = "Private Authorization Key",
    [0x13] = "Public Authorization Key",
  },
  [0x420145] = {
    [0x1] = "High", [0x2] = "Low",
  },
  [0x42014A] = {
    [0x1] = "Login",
  },
  [0x420151] = {
    [0x1] = "Client", [0x2] = "Server",
  },
  [0x420158] = {
    [0x1] = "Increment", [0x2] = "Decrement", [0x3] = "Negate",
  },
}
local MASKS = {
  [0x42002C] = {
    [0x1] = "Sign", [0x2] = "Verify", [0x4] = "Encrypt", [0x8] = "Decrypt", [0x10] = "Wrap Key", [0x20] = "Unwrap Key", [0x40] = "Export",
    [0x80] = "MAC Generate", [0x100] = "MAC Verify", [0x200] = "Derive Key", [0x400] = "Content Commitment", [0x800] = "Key Agreement",
    [0x1000] = "Certificate Sign", [0x2000] = "CRL Sign", [0x4000] = "Generate Cryptogram", [0x8000] = "Validate Cryptogram",
    [0x10000] = "Translate Encrypt", [0x20000] = "Translate Decrypt", [0x40000] = "Translate Wrap", [0x80000] = "Translate Unwrap",
    [0x100000] = "Authenticate", [0x200000] = "Unrestricted", [0x400000] = "FPE Encrypt", [0x800000] = "FPE Decrypt",
  },
  [0x42008E] = {
    [0x1] = "Online Storage", [0x2] = "Archival Storage", [0x4] = "Destroyed Storage",
  },
  [0x42015E] = {
    [0x1] = "Software", [0x2] = "Hardware", [0x4] = "On Processor", [0x8] = "On System", [0x10] = "Off System", [0x20] = "Hypervisor",
    [0x40] = "Operating System", [0x80] = "Container", [0x100] = "On Premises", [0x200] = "Off Premises", [0x400] = "Self Managed",
    [0x800] = "Outsourced", [0x1000] = "Validated", [0x2000] = "Same Jurisdiction",
  },
}
local SECRETS = {
  [0x420025] = true, -- Credential Value
  [0x420027] = true, -- CRT Coefficient
  [0x42002E] = true, -- D
  [0x420030] = true, -- Derivation Data
  [0x420035] = true, -- Digest Value
  [0x42003F] = true, -- Key
  [0x420043] = true, -- Key Material
  [0x420045] = true, -- Key Value
  [0x42005A] = true, -- Opaque Data Value
  [0x42005E] = true, -- P
  [0x420060] = true, -- Prime Exponent P
  [0x420061] = true, -- Prime Exponent Q
  [0x420063] = true, -- Private Exponent
  [0x420071] = true, -- Q
  [0x42009C] = true, -- Vendor Extension
  [0x42009F] = true, -- X
  [0x4200A1] = true, -- Password
  [0x4200A2] = true, -- Device Identifier
  [0x4200A9] = true, -- Machine Identifier
  [0x4200AA] = true, -- Media Identifier
  [0x4200AB] = true, -- Network Identifier
  [0x4200B0] = true, -- Device Serial Number
  [0x4200C2] = true, -- Data
  [0x4200C3] = true, -- Signature Data
  [0x4200C6] = true, -- MAC Data
  [0x4200CB] = true, -- Attestation Measurement
  [0x4200CC] = true, -- Attestation Assertion
  [0x4200FE] = true, -- Authenticated Encryption Additional Data
  [0x420107] = true, -- Digested Data
  [0x42014B] = true, -- Ticket Value
  [0x420155] = true, -- Server Hashed Password
  [0x420156] = true, -- One Time Password
  [0x420157] = true, -- Hashed Password
  [0x42015B] = true, -- PKCS#11 Input Parameters
  [0x42015C] = true, -- PKCS#11 Output Parameters
}
-- END

local TYPES = {
  "Structure", "Integer", "Long Integer", "Big Integer", "Enumeration", "Boolean", "Text String", "Byte String", "Date-Time", "Interval",
  "Date-Time Extended",
}
-- the lengths of the types that have one
local FIXED = { [2] = 4, [3] = 8, [5] = 4, [6] = 8, [9] = 8, [10] = 4, [11] = 8 }
local REQUEST, RESPONSE = 0x420078, 0x42007B
local ATTRIBUTE_NAME, ATTRIBUTE_VALUE, ATTRIBUTE_REFERENCE = 0x42000A, 0x42000B, 0x42013B
local OPERATION, RESULT_STATUS, RESULT_REASON = 0x42005C, 0x42007F, 0x42007E
local MAJOR, MINOR, UNIQUE_IDENTIFIER = 0x42006A, 0x42006B, 0x420094
-- bounds on what is shown of one message, by depth and number of items, and on the operations in the column of information
local DEEPEST, MOST_ITEMS, MOST_OPERATIONS = 64, 50000, 8

local TAG_OF = {}
for tag, name in pairs(TAGS) do
  TAG_OF[name] = tag
end

local proto = Proto("kmip", "Key Management Interoperability Protocol")
local fields = {
  item = ProtoField.none("kmip.item", "Item"),
  tag = ProtoField.uint24("kmip.tag", "Tag", base.HEX, TAGS),
  type = ProtoField.uint8("kmip.type", "Type", base.HEX, TYPES),
  length = ProtoField.uint32("kmip.length", "Length"),
  padding = ProtoField.bytes("kmip.padding", "Padding"),
  hidden = ProtoField.uint32("kmip.hidden", "Hidden bytes"),
  integer = ProtoField.int32("kmip.integer", "Integer"),
  long_integer = ProtoField.int64("kmip.long_integer", "Long Integer"),
  big_integer = ProtoField.bytes("kmip.big_integer", "Big Integer"),
  enumeration = ProtoField.uint32("kmip.enumeration", "Enumeration", base.HEX),
  boolean = ProtoField.bool("kmip.boolean", "Boolean"),
  text = ProtoField.string("kmip.text", "Text String"),
  bytes = ProtoField.bytes("kmip.bytes", "Byte String"),
  date_time = ProtoField.absolute_time("kmip.date_time", "Date-Time", base.UTC),
  interval = ProtoField.uint32("kmip.interval", "Interval in seconds"),
  date_time_extended = ProtoField.absolute_time("kmip.date_time_extended", "Date-Time Extended", base.UTC),
  name = ProtoField.string("kmip.name", "Name of the value"),
  mask = ProtoField.string("kmip.mask", "Bit"),
  version = ProtoField.string("kmip.version", "Version"),
  operation = ProtoField.uint32("kmip.operation", "Operation", base.HEX, VALUES[OPERATION]),
  result_status = ProtoField.uint32("kmip.result_status", "Result Status", base.HEX, VALUES[RESULT_STATUS]),
  result_reason = ProtoField.uint32("kmip.result_reason", "Result Reason", base.HEX, VALUES[RESULT_REASON]),
  unique_identifier = ProtoField.string("kmip.unique_identifier", "Unique Identifier"),
}
proto.fields = fields
-- the enumerations with a filter of their own
local OWN = { [OPERATION] = fields.operation, [RESULT_STATUS] = fields.result_status, [RESULT_REASON] = fields.result_reason }

local malformed = ProtoExpert.new("kmip.malformed", "Malformed", expert.group.MALFORMED, expert.severity.ERROR)
local bounded = ProtoExpert.new("kmip.not_shown", "Not shown", expert.group.UNDECODED, expert.severity.WARN)
local not_zero = ProtoExpert.new("kmip.padding_not_zero", "The padding isn't zero", expert.group.PROTOCOL, expert.severity.NOTE)
local failed = ProtoExpert.new("kmip.failed", "The operation failed", expert.group.RESPONSE_CODE, expert.severity.NOTE)
proto.experts = { malformed, bounded, not_zero, failed }

proto.prefs.show_secrets = Pref.bool("Show secrets", false, "Show the values of keys, passwords and credentials")
proto.prefs.max_length = Pref.uint("Longest message", 16777216, "In bytes; of a longer one only the bytes at hand are shown")
proto.prefs.desegment = Pref.bool("Reassemble messages over TCP segments", true, "By the length in a message's header")

-- The characters of more than one byte that UTF-8 has, as Unicode defines them.
local LONGER = {
  "[\194-\223][\128-\191]", "\224[\160-\191][\128-\191]", "[\225-\236\238\239][\128-\191][\128-\191]", "\237[\128-\159][\128-\191]",
  "\240[\144-\191][\128-\191][\128-\191]", "[\241-\243][\128-\191][\128-\191][\128-\191]", "\244[\128-\143][\128-\191][\128-\191]",
}
-- Controls, and what changes the direction of a text or can't be seen.
local UNSEEN = {
  "%c", "\194[\128-\159\173]", "\216\156", "\226\128[\139-\143\168-\174]", "\226\129[\160-\175]", "\239\187\191", "\243\160[\128-\135][\128-\191]",
}

-- Replaces what each pattern finds.
local function replaced(text, patterns, by)
  for _, pattern in ipairs(patterns) do
    text = text:gsub(pattern, by)
  end
  return text
end

local function is_utf8(text)
  return not replaced(text, LONGER, "a"):find("[\128-\255]")
end

-- A text for a line of the tree, cut if it is long.
local function printable(text)
  if #text > 120 then
    text = text:sub(1, 120):gsub("[\192-\255][\128-\191]*$", "") .. "..."
  end
  return '"' .. replaced(text, UNSEEN, ".") .. '"'
end

-- The first bytes of a range as hexadecimal digits.
local function digits(range)
  local some = range:len() > 32 and range:range(0, 32) or range
  return "0x" .. some:bytes():tohex() .. (range:len() > 32 and "..." or "")
end

-- The date that lies so many seconds after 1970, as a text, or nothing outside of the years 0 to 9999.
local function date_of(seconds)
  if seconds < -62167219200 or seconds > 253402300799 then
    return nil
  end
  return os.date("!%Y-%m-%d %H:%M:%S UTC", seconds)
end

-- The names of the bits that a number has, and the bits without a name.
local function bits_of(number, names)
  local found, rest = {}, number
  for place = 0, 31 do
    local bit = 2 ^ place
    if number % (2 * bit) >= bit and names[bit] then
      found[#found + 1] = names[bit]
      rest = rest - bit
    end
  end
  if rest > 0 then
    found[#found + 1] = string.format("0x%X", rest)
  end
  return found
end

-- For each type, what adds a value to the tree and returns it as text; or nothing, and what is wrong with it. `as` is the tag that
-- says what the value means: its own, or that of the attribute whose value it is.
local READERS = {}

READERS[2] = function(node, range, as)
  node:add(fields.integer, range)
  if not MASKS[as] then
    return tostring(range:int())
  end
  local bits = bits_of(range:uint(), MASKS[as])
  for _, bit in ipairs(bits) do
    node:add(fields.mask, range, bit):set_generated()
  end
  return string.format("0x%08X (%s)", range:uint(), table.concat(bits, " | "))
end

READERS[3] = function(node, range)
  node:add(fields.long_integer, range)
  return tostring(range:int64())
end

READERS[4] = function(node, range)
  node:add(fields.big_integer, range)
  return digits(range)
end

READERS[5] = function(node, range, as)
  local number = range:uint()
  local name = (VALUES[as] or {})[number] or as == ATTRIBUTE_REFERENCE and TAGS[number] or nil
  node:add(fields.enumeration, range)
  if OWN[as] then
    node:add(OWN[as], range)
  end
  if name then
    node:add(fields.name, range, name):set_generated()
  end
  return string.format(name and "%s (0x%08X)" or "%s0x%08X", name or "", number)
end

READERS[6] = function(node, range)
  local number = range:uint64()
  if number > UInt64(1) then
    return nil, "a Boolean is 0 or 1"
  end
  node:add(fields.boolean, range, number == UInt64(1))
  return tostring(number == UInt64(1))
end

READERS[7] = function(node, range, as)
  local text = range:raw()
  if not is_utf8(text) then
    return nil, "the text isn't UTF-8"
  end
  node:add_packet_field(fields.text, range, ENC_UTF_8)
  if as == UNIQUE_IDENTIFIER then
    node:add_packet_field(fields.unique_identifier, range, ENC_UTF_8)
  end
  return printable(text)
end

READERS[8] = function(node, range)
  node:add(fields.bytes, range)
  return digits(range)
end

READERS[9] = function(node, range)
  local seconds = range:int64():tonumber()
  local date = date_of(seconds)
  if date then
    node:add(fields.date_time, range, NSTime.new(seconds, 0))
  end
  return date or tostring(range:int64()) .. " s"
end

READERS[10] = function(node, range)
  node:add(fields.interval, range)
  return range:uint() .. " s"
end

READERS[11] = function(node, range)
  local number = range:int64():tonumber()
  local seconds = math.floor(number / 1000000)
  local date = date_of(seconds)
  if date then
    node:add(fields.date_time_extended, range, NSTime.new(seconds, (number - seconds * 1000000) * 1000))
  end
  return date and date:gsub(" UTC$", string.format(".%06d UTC", number - seconds * 1000000)) or tostring(range:int64()) .. " us"
end

local function complain(node, text)
  node:add_proto_expert_info(malformed, text)
end

-- What the column of information says of a message is gathered from these items.
local function note(message, node, tag, typ, range)
  if tag == OPERATION and typ == 5 then
    message.operations[#message.operations + 1] = VALUES[OPERATION][range:uint()] or string.format("0x%X", range:uint())
  elseif tag == RESULT_STATUS and typ == 5 then
    local last = math.max(#message.operations, 1)
    local status = VALUES[RESULT_STATUS][range:uint()] or string.format("0x%X", range:uint())
    message.operations[last] = message.operations[last] and message.operations[last] .. " " .. status or status
    if range:uint() == 1 then
      node:add_proto_expert_info(failed)
    end
  elseif tag == MAJOR and typ == 2 then
    message.major = message.major or range:int()
  elseif tag == MINOR and typ == 2 and message.major and not message.version then
    message.version = message.major .. "." .. range:int()
    node:add(fields.version, range, message.version):set_generated()
  end
end

-- Adds the value of a leaf, and returns it as text.
local function value(message, node, it)
  if it.hidden then
    node:add(fields.hidden, message.tvb(it.from + 4, 4), it.length):set_generated()
    return string.format("hidden (%d bytes)", it.length)
  end
  if it.length == 0 then
    if it.typ == 7 then
      node:add(fields.text, message.tvb(it.from + 4, 4), "")
    end
    return "empty"
  end
  local range = message.tvb(it.from + 8, it.length)
  local text, wrong = READERS[it.typ](node, range, it.tag == ATTRIBUTE_VALUE and it.named or it.tag)
  if not text then
    complain(node, wrong)
    return digits(range)
  end
  note(message, node, it.tag, it.typ, range)
  return text
end

-- What is wrong with an item's header, if anything is.
local function fault(it, to)
  if not TYPES[it.typ] then
    return string.format("the type 0x%02X is unknown", it.typ)
  elseif FIXED[it.typ] and it.length ~= FIXED[it.typ] then
    return string.format("its length is %d where %d is due", it.length, FIXED[it.typ])
  elseif it.stop > to then
    return string.format("it takes %d bytes where %d are left", it.stop - it.from, to - it.from)
  end
end

-- The item that begins at an offset: its header, and the offset behind its padding.
local function header(tvb, from)
  local it = { from = from, tag = tvb(from, 3):uint(), typ = tvb(from + 3, 1):uint(), length = tvb(from + 4, 4):uint() }
  it.stop = from + 8 + it.length + (it.typ == 1 and 0 or -it.length % 8)
  return it
end

local function padding(message, node, it)
  local begin = it.from + 8 + it.length
  if it.typ ~= 1 and begin < it.stop then
    local range = message.tvb(begin, it.stop - begin)
    node:add(fields.padding, range)
    if range:raw():find("[^%z]") then
      node:add_proto_expert_info(not_zero)
    end
  end
end

-- Adds the items between two offsets to the tree. `hidden`: they stand in a secret.
local function items(message, tree, from, to, depth, hidden)
  local named
  while from < to do
    if to - from < 8 then
      tree:add(fields.item, message.tvb(from, to - from)):set_text("The header of an item")
      return complain(tree, string.format("a header takes 8 bytes where %d are left", to - from))
    end
    message.items = message.items + 1
    if message.items > MOST_ITEMS or depth > DEEPEST then
      return tree:add_proto_expert_info(bounded, "items that are nested too deeply, or too many, aren't shown")
    end
    local it = header(message.tvb, from)
    it.hidden = hidden or SECRETS[it.tag] and not proto.prefs.show_secrets
    it.named = named
    local node = tree:add(fields.item, message.tvb(from, math.min(it.stop, to) - from))
    node:add(fields.tag, message.tvb(from, 3))
    node:add(fields.type, message.tvb(from + 3, 1))
    node:add(fields.length, message.tvb(from + 4, 4))
    local label = string.format("%s (0x%06X), %s", TAGS[it.tag] or "Unknown tag", it.tag, TYPES[it.typ] or "unknown type")
    node:set_text(label)
    local wrong = fault(it, to)
    if wrong then
      return complain(node, wrong)
    end
    if it.typ == 1 then
      items(message, node, from + 8, it.stop, depth + 1, it.hidden)
    else
      node:set_text(label .. ": " .. value(message, node, it))
      padding(message, node, it)
      named = it.tag == ATTRIBUTE_NAME and it.typ == 7 and it.length > 0 and TAG_OF[message.tvb(from + 8, it.length):raw()] or named
    end
    from = it.stop
  end
end

-- Whether bytes begin a message, as far as they go: a Structure with the tag of a request or a response.
local function begins_message(tvb, from)
  local tag = tvb:len() - from >= 4 and tvb(from, 4):uint()
  return tag == REQUEST * 256 + 1 or tag == RESPONSE * 256 + 1
end

local function information(message, tag)
  local parts = {}
  for number, it in ipairs(message.operations) do
    parts[number] = number <= MOST_OPERATIONS and it or nil
  end
  local more = #message.operations > MOST_OPERATIONS and ", ..." or ""
  local kind = tag == REQUEST and "Request" or "Response"
  return kind .. (message.version and " (" .. message.version .. ")" or "") .. (#parts > 0 and ": " or "") .. table.concat(parts, ", ") .. more
end

-- Shows one message, the whole of a buffer.
local function show(tvb, pinfo, tree)
  pinfo.cols.protocol = "KMIP"
  local root = tree:add(proto, tvb())
  if not begins_message(tvb, 0) then
    complain(root, "a message begins with a Request Message or a Response Message")
    return tvb:len()
  end
  local message = { tvb = tvb, items = 0, operations = {} }
  items(message, root, 0, tvb:len(), 0, false)
  local said = information(message, tvb(0, 3):uint())
  root:append_text(", " .. said)
  pinfo.cols.info:append(pinfo.private.kmip_said and "; " .. said or said)
  pinfo.private.kmip_said = "1"
  return tvb:len()
end

-- How many bytes the message at an offset takes; all that are there if that is no message, or too long.
local function length_of(tvb, _, from)
  local there = tvb:len() - from
  local length = there >= 8 and 8 + tvb(from + 4, 4):uint()
  if not length or not begins_message(tvb, from) or length > proto.prefs.max_length then
    return there
  end
  return length
end

local function dissect(tvb, pinfo, tree)
  -- what is no message is left to others, as a handshake of TLS
  if tvb:len() >= 4 and not begins_message(tvb, 0) or tvb(0, 1):uint() ~= 0x42 then
    return 0
  end
  pinfo.cols.info:clear()
  pinfo.private.kmip_said = nil
  dissect_tcp_pdus(tvb, tree, 8, length_of, show, proto.prefs.desegment)
  return tvb:len()
end

proto.dissector = dissect

-- Whether bytes are the beginning of a message and of its header: for ports other than KMIP's.
local function is_message(tvb)
  local within = tvb:len() >= 12 and begins_message(tvb, 0) and tvb(8, 4):uint()
  return within == 0x42007701 or within == 0x42007A01
end

local function over_tcp(tvb, pinfo, tree)
  if not is_message(tvb) then
    return false
  end
  pinfo.conversation = proto
  dissect(tvb, pinfo, tree)
  return true
end

-- The stream below stays that of TLS.
local function over_tls(tvb, pinfo, tree)
  if not is_message(tvb) then
    return false
  end
  dissect(tvb, pinfo, tree)
  return true
end

DissectorTable.get("tcp.port"):add(5696, proto)
DissectorTable.get("tls.port"):add(5696, proto)
proto:register_heuristic("tcp", over_tcp)
proto:register_heuristic("tls", over_tls)
