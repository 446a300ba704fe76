#!/usr/bin/env python3
"""Writes the crate `probe`: for each algorithm over each hash, and for each call of a node, one exported function that makes a node,
readies it and makes that call. The node lies in the function's own frame, since no node crosses to C."""

PAIRS = [(1, 1, "Ripemd160", "MdxMac"), (1, 3, "Sha1", "MdxMac"), (2, 1, "Ripemd160", "Hmac"), (2, 3, "Sha1", "Hmac"), (2, 4, "Sha256", "Hmac"),
         (3, 1, "Ripemd160", "ShortMac"), (3, 3, "Sha1", "ShortMac")]

USES = """#![tactic(auto)]

use hash::Hash;
use hmac::Hmac;
use mac::Algorithm;
use mdxmac::{MdxMac, ShortMac};
use node::Node;
use refusals::Refusal;
use ripemd160::Ripemd160;
use sha_1::Sha1;
use sha256::Sha256;

#[repr(C)]
pub struct Work {
    pub bytes: [u8; 64],
}

fn number(r: Result<(), Refusal>) -> u32 {
    match r {
        Ok(()) => 0,
        Err(e) => u32::from(u8::from(e)),
    }
}

fn ready<H: Hash, A: Algorithm<H>>(node: &mut Node<H, A>, key: &[u8], work: &mut Work) -> u32 {
    number(node.install(2, key, &mut work.bytes))
}
"""

CALLS = {
    "install": "    let mut node: Node<{H}, {A}> = Node::make({H}::new(), t as usize, 258);\n    let answer = ready(&mut node, key, work);\n    if node.desk().level == 100 {{\n        answer\n    }} else {{\n        99\n    }}\n",
    "seal": "    let mut node: Node<{H}, {A}> = Node::make({H}::new(), t as usize, 258);\n    let _ = ready(&mut node, key, work);\n"
            "    match node.seal(2, kind as u8, body, 258, out, &mut work.bytes) {{\n        Ok(_) => 0,\n        Err(e) => u32::from(u8::from(e)),\n    }}\n",
    "take": "    let mut node: Node<{H}, {A}> = Node::make({H}::new(), t as usize, 258);\n    let _ = ready(&mut node, key, work);\n"
            "    match node.take(body, &mut work.bytes) {{\n        Ok(order) => {{\n            if order.fields().kind == kind {{\n                0\n            }} else {{\n                99\n            }}\n        }}\n        Err(e) => u32::from(u8::from(e)),\n    }}\n",
    "lane": "    let mut node: Node<{H}, {A}> = Node::make({H}::new(), t as usize, 258);\n    let _ = ready(&mut node, key, work);\n"
            "    let _ = node.open(1, 2);\n    let _ = node.feed(1, body);\n    number(node.finish(1, out, &mut work.bytes))\n",
}

if __name__ == "__main__":
    print(USES)
    for a, h, H, A in PAIRS:
        for call, code in CALLS.items():
            print(f"""#[unsafe(no_mangle)]
pub extern "C" fn probe_{call}_{a}_{h}(t: u8, kind: u8, key: &[u8], body: &[u8], out: &mut [u8], work: &mut Work) -> u32 {{
{code.format(H=H, A=A)}}}
""")
