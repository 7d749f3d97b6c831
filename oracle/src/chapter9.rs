//! Descriptors made by hand (USB 2.0, 9.6): device, configuration, interface, endpoint, and those that are stepped over.

/// A device descriptor of 18 bytes with its bMaxPacketSize0.
pub fn device(max: u8) -> Vec<u8> {
    vec![18, 1, 0x00, 0x02, 0, 0, 0, max, 0x09, 0x12, 0x01, 0x00, 0x00, 0x01, 1, 2, 3, 1]
}

/// A configuration with what stands behind its descriptor; the total length is that of all, the number of interfaces counts alternate 0.
pub fn configuration(value: u8, behind: &[Vec<u8>]) -> Vec<u8> {
    let total = 9 + behind.iter().map(Vec::len).sum::<usize>();
    let interfaces = behind.iter().filter(|d| d.len() >= 4 && d[1] == 4 && d[3] == 0).count();
    let [low, high] = (total as u16).to_le_bytes();
    let head = vec![9, 2, low, high, interfaces as u8, value, 0, 0x80, 50];
    [&[head], behind].concat().concat()
}

/// An interface descriptor: its number, alternate setting, count of endpoints and class.
pub fn interface(number: u8, alternate: u8, endpoints: u8, class: u8) -> Vec<u8> {
    vec![9, 4, number, alternate, endpoints, class, 0, 0, 0]
}

/// An endpoint descriptor: bEndpointAddress, bmAttributes, wMaxPacketSize.
pub fn endpoint(address: u8, attributes: u8, size: u16) -> Vec<u8> {
    let [low, high] = size.to_le_bytes();
    vec![7, 5, address, attributes, low, high, 0]
}

/// An endpoint descriptor of the audio class, with two bytes more.
pub fn audio_endpoint(address: u8, attributes: u8, size: u16) -> Vec<u8> {
    let mut bytes = endpoint(address, attributes, size);
    bytes[0] = 9;
    bytes.extend([0, 0]);
    bytes
}

/// An interface association.
pub fn association(first: u8, count: u8) -> Vec<u8> {
    vec![8, 11, first, count, 1, 0, 0, 0]
}

/// A HID descriptor that says it lists so many descriptors, in so many bytes.
pub fn hid(count: u8, length: u8) -> Vec<u8> {
    let mut bytes = vec![length, 0x21, 0x11, 0x01, 0, count];
    bytes.resize(length as usize, 0x22);
    bytes
}

/// A descriptor of any type and length whose other bytes count up.
pub fn unknown(kind: u8, length: u8) -> Vec<u8> {
    let mut bytes: Vec<u8> = (0..length).collect();
    bytes[0] = length;
    bytes[1] = kind;
    bytes
}

/// The configuration of most traces: an interface with a bulk endpoint each way, 32 bytes.
pub fn disk(value: u8, size: u16) -> Vec<u8> {
    configuration(value, &[interface(0, 0, 2, 8), endpoint(0x81, 2, size), endpoint(0x02, 2, size)])
}

/// One interface with so many endpoint descriptors, and before them a descriptor of `filler` bytes that is stepped over.
pub fn many(value: u8, endpoints: usize, filler: u8) -> Vec<u8> {
    let address = |i: usize| (i % 15 + 1) as u8 | ((i / 15 % 2) as u8) << 7;
    let mut behind = vec![interface(0, 0, endpoints as u8, 255)];
    behind.extend((filler > 0).then(|| unknown(0x24, filler)));
    behind.extend((0..endpoints).map(|i| endpoint(address(i), i as u8, (i % 1024) as u16 + 1)));
    configuration(value, &behind)
}
