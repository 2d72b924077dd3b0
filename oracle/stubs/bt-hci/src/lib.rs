//! Stand-in for the few names of bt-hci that the ported files lean on.
pub trait WriteHci {
    fn size(&self) -> usize;
    fn write_hci(&self, dest: &mut [u8]) -> Result<(), ()>;
}
pub mod uuid {
    #[derive(Clone, Copy, Debug, PartialEq, Eq)]
    pub struct BluetoothUuid16(pub u16);
    #[derive(Clone, Copy, Debug, PartialEq, Eq)]
    pub struct BluetoothUuid32(pub u32);
    #[derive(Clone, Copy, Debug, PartialEq, Eq)]
    pub struct BluetoothUuid128(pub u128);
    impl From<BluetoothUuid16> for [u8; 2] {
        fn from(u: BluetoothUuid16) -> Self {
            u.0.to_le_bytes()
        }
    }
    impl From<BluetoothUuid32> for [u8; 4] {
        fn from(u: BluetoothUuid32) -> Self {
            u.0.to_le_bytes()
        }
    }
    impl From<BluetoothUuid128> for [u8; 16] {
        fn from(u: BluetoothUuid128) -> Self {
            u.0.to_le_bytes()
        }
    }
    impl BluetoothUuid16 {
        pub const fn to_le_bytes(&self) -> [u8; 2] {
            self.0.to_le_bytes()
        }
    }
    impl BluetoothUuid128 {
        pub const fn base() -> Self {
            Self(0x00000000_0000_1000_8000_00805F9B34FB)
        }
        pub const fn set_initial_group(self, v: u32) -> Self {
            Self(self.0 | ((v as u128) << 96))
        }
        pub const fn to_le_bytes(&self) -> [u8; 16] {
            self.0.to_le_bytes()
        }
    }
    pub mod declarations {
        use super::BluetoothUuid16;
        pub const PRIMARY_SERVICE: BluetoothUuid16 = BluetoothUuid16(0x2800);
        pub const SECONDARY_SERVICE: BluetoothUuid16 = BluetoothUuid16(0x2801);
        pub const INCLUDE: BluetoothUuid16 = BluetoothUuid16(0x2802);
        pub const CHARACTERISTIC: BluetoothUuid16 = BluetoothUuid16(0x2803);
    }
    pub mod descriptors {
        use super::BluetoothUuid16;
        pub const CLIENT_CHARACTERISTIC_CONFIGURATION: BluetoothUuid16 = BluetoothUuid16(0x2902);
    }
}
