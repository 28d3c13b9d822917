// A host in Rust: the inverse of a table of order 2, and a table that has none.
//   mkdir -p target && rustc --edition 2021 -o target/host examples/host.rs -C link-arg=crates/host/out/libhost.a && target/host
extern "C" {
    fn muljenta_inverse(n: usize, table: *const u8, table_size: usize, out: *mut u8, out_size: usize) -> u32;
}

fn inverse(n: usize, entries: &[i32]) -> Result<Vec<i64>, u32> {
    let table: Vec<u8> = entries.iter().flat_map(|v| v.to_le_bytes()).collect();
    let mut out = vec![0u8; 8 * n * n];
    // Both are buffers of their own, and their lengths go with them; any other length would be refused by 3.
    let number = unsafe { muljenta_inverse(n, table.as_ptr(), table.len(), out.as_mut_ptr(), out.len()) };
    if number != 0 {
        return Err(number);
    }
    Ok(out.chunks(8).map(|b| i64::from_le_bytes(b.try_into().unwrap())).collect())
}

fn main() {
    for entries in [[2, 1, 1, 1], [2, 1, 1, 2]] {
        match inverse(2, &entries) {
            Ok(found) => println!("0 {}", found.iter().map(|v| v.to_string()).collect::<Vec<_>>().join(" ")),
            Err(number) => println!("{number}"),
        }
    }
}
