//! SHAKE256 against NIST's published values and against values computed elsewhere.

use reference::keylist::to_hex;
use reference::shake256::shake256;

/// Byte i of the message of a length L is 7i + L modulo 256.
fn patterned_message(length: usize) -> Vec<u8> {
    (0..length).map(|i| (7 * i + length) as u8).collect()
}

#[test]
fn nist_empty_message() {
    let expected = "46b9dd2b0ba88d13233b3feb743eeb243fcd52ea62b81b82b50c27646ed5762f\
                    d75dc4ddd8c0f200cb05019d67b592f6fc821c49479ab48640292eacb3b7c4be";
    assert_eq!(to_hex(&shake256(b"", 64)), expected);
}

#[test]
fn nist_short_message() {
    let expected = "aabb07488ff9edd05d6a603b7791b60a16d45093608f1badc0c9cc9a9154f215";
    assert_eq!(to_hex(&shake256(&[0x0f], 32)), expected);
}

#[test]
fn nist_1600_bit_message() {
    let expected = "cd8a920ed141aa0407a22d59288652e9d9f1a7ee0c1e7c1ca699424da84a904d\
                    2d700caae7396ece96604440577da4f3aa22aeb8857f961c4cd8e06f0ae6610b";
    assert_eq!(to_hex(&shake256(&[0xa3; 200], 64)), expected);
}

#[test]
fn message_abc() {
    let expected = "483366601360a8771c6863080cc4114d8db44530f8f1e1ee4f94ea37e78b5739";
    assert_eq!(to_hex(&shake256(b"abc", 32)), expected);
}

#[test]
fn lengths_around_the_rate() {
    let cases = [
        (1, "94da6280b240ea6a2ab2cfdf0fb301fd77153d5b748baf796190856803d977ba"),
        (16, "b11bed908b0851b68d4d3e8d9f222005e356f34d8e15e25d9a9940292626a940"),
        (49, "b28b0501f17f5ab152752d0e0c7abdbed624011ca6f8020e3af29e27e85a7017"),
        (51, "dc9e86b155bd55c08d68004c51c54adeba5414cf404ace11b9ee489f412d03f9"),
        (67, "e4bf9740a29786fcefb15210d47aa33100232aced24aea8d7278ab7c07c202cb"),
        (134, "834debed8ba1ecc731b0944de0e99e1b4e73b2ef8a1de18640ddd18d9437ff0b"),
        (135, "61fd8086e0b519cc9c44c1b8728521efaf85783d8dfc96fa25c50992a52e6a27"),
        (136, "37b535913c69c052649048a32e9ca3e6138f6ea5bfe90942722f3f1de24a6857"),
        (137, "0a8ca993bdd715fa37de5ca286dfa11f66780f0dff4d87bbc45ad34444ccaca0"),
        (271, "12a815b57ecac0ba738a3afb1d5d07869cc605cb2ea8b929927c99c7bcdcacf7"),
        (272, "20c469b0d1ff55bdeaf530400f439fdc414b59697429d96e87f0a5274ee824e6"),
        (273, "fe4511853695de271f495c24b4c760f8c6d91331a82c124df6455b2d1a6d3868"),
        (8225, "be942b6be0f569a717067983ef90c640d8cbd910d933bf6b55f342b821c6da40"),
    ];
    for (length, expected) in cases {
        assert_eq!(to_hex(&shake256(&patterned_message(length), 32)), expected, "message of {length} bytes");
    }
}

#[test]
fn long_outputs() {
    let message: Vec<u8> = (0..50).collect();
    let output = shake256(&message, 1000);
    let around_the_rate = "3eb9d08fe5fb440312e4b92f1e6a2cbc1bc613327d2b8b8ba0ed76c82df76fbb\
                           885a20f55837b41e18996731fe7227c621d1ec4c12e1c122500cf2863721b176";
    assert_eq!(to_hex(&output[104..168]), around_the_rate);
    assert_eq!(to_hex(&output[968..]), "3bb9569f03ebaece7b2499937575cbaf23f19f7c6ef441add25a128d6fe9fb74");
    for length in [0, 1, 135, 136, 137, 272, 300, 999] {
        assert_eq!(shake256(&message, length), output[..length], "output of {length} bytes");
    }
}
