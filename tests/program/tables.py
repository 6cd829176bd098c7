"""The tables of a registry, by the texts that make them: that of the version, and that of the devices in version 1 and
in version 2."""
CREATE_VERSION_TABLE = (
    "CREATE TABLE enogate_meta (k INTEGER PRIMARY KEY CHECK (k = 1), version INTEGER NOT NULL) STRICT"
)
DEVICE_COLUMNS_SQL = (
    "id INTEGER PRIMARY KEY CHECK (id >= 0 AND id <= 4294967294), "
    "eep INTEGER NOT NULL CHECK (eep >= 0 AND eep <= 16777215), "
    "maker INTEGER NOT NULL CHECK (maker >= -1 AND maker <= 2047)"
)
CREATE_DEVICE_TABLE_1 = f"CREATE TABLE enogate_device ({DEVICE_COLUMNS_SQL}) STRICT"
CREATE_DEVICE_TABLE_2 = f"CREATE TABLE enogate_device_v2 ({DEVICE_COLUMNS_SQL}, label TEXT NOT NULL) STRICT"
