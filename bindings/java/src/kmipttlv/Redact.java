package kmipttlv;

/** Which values {@link KmipTtlv#toJson} hides: null stands in their place. The order is that of the library's numbers, from 0. */
public enum Redact {
    /** None. */
    NOTHING,
    /** Those of secret tags, whose items can hold a key, data to encrypt or decrypt, or proof of identity, and of all items in them. */
    SECRETS,
    /** All but those of Enumerations. */
    VALUES
}
