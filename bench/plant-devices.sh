#!/bin/sh
# Plants one mistake after another in a copy of the twin, and shows whether devices finds it.
# usage: ./plant-devices.sh, after `rt lib` in crates/bench_library
set -eu
cd "$(dirname "$0")"
rm -rf planted
mkdir -p planted
cp -r library planted/library
rm -rf planted/library/target
plant() { # file, text, other text
    rm -rf planted/twin
    mkdir -p planted/twin
    cp -r twin/Cargo.toml twin/src planted/twin/
    FILE=planted/twin/src/$1 FROM=$2 TO=$3 python3 - <<'P'
import os
p = os.environ["FILE"]; s = open(p).read(); f = os.environ["FROM"]
assert s.count(f) == 1, (p, f, s.count(f))
open(p, "w").write(s.replace(f, os.environ["TO"]))
P
    (cd planted/library && LIBRARY=$(realpath ../../../crates/bench_library/out) cargo build --release --offline --quiet --bin devices 2>/dev/null)
    status=0
    planted/library/target/release/devices 3000 1 2 > planted/out 2> planted/errors || status=$?
    echo "$1: $2 -> $3"
    echo "    status $status; $(tail -n 1 planted/out)"
    if [ $status -ne 0 ]; then printf '    %s\n' "$(head -n 1 planted/out | cut -c 1-300)"; fi
}
# bytes of an image
plant device.rs 'row[Self::KEPT..Self::LOOSE].fill(value);' 'row[Self::KEPT..Self::LOOSE - 1].fill(value);'
plant device.rs '2 => row[0] = 1' '2 => row[0] = 2'
plant device.rs '3 if row[0] != 0 => row[0] = 1,' '3 if row[0] != 0 => {}'
plant device.rs 'let row = self.rows.row(row);
        row[0] = 0;
        row[1..]' 'let row = self.rows.row(row);
        row[1..]'
plant device.rs 'row[Self::LOOSE] = 1;' 'row[Self::LOOSE] = 2;'
plant device.rs 'MOST_BLOCKS: usize = 65_535' 'MOST_BLOCKS: usize = 65_536'
# the battery device
plant device.rs 'if row[0] != 0 {
            return Err' 'if row[0] > 1 {
            return Err'
plant device.rs 'fn restart(&mut self, calls: u32, _remains: &[u8]) {
        self.rows.left = calls;' 'fn restart(&mut self, calls: u32, _remains: &[u8]) {
        self.rows.left = calls.max(1);'
# what a fault names
plant device.rs 'Err(Fault::from(refusal).at_block(block));' 'Err(Fault::from(refusal).at_block(block + 1));'
plant device.rs 'self.rows.spend()?;' 'self.rows.spend().map_err(|fault| fault.at_block(0))?;'
plant engine.rs 'return Err(fault.at_entry(self.entries).of_trade(x.named_trade()));' 'return Err(fault.of_trade(x.named_trade()));'
plant engine.rs 'return Err(fault.at_entry(self.entries).of_trade(x.named_trade()));' 'return Err(fault.at_entry(self.entries));'
plant engine.rs 'self.accepts(x).map_err(|fault| fault.of_trade(x.named_trade()))?;' 'self.accepts(x)?;'
plant engine.rs 'trade: fault.trade,' 'trade: None,'
plant engine.rs 'ruling: Some(fault.refusal),' 'ruling: None,'
plant journal.rs 'device.read(record_block(entry), &mut bytes).map_err(|fault| fault.at_entry(entry))?;' 'device.read(record_block(entry), &mut bytes)?;'
plant journal.rs 'answer => answer.map_err(|fault| fault.at_entry(entry))?,' 'answer => answer?,'
# lots
plant book.rs 'if quantity > 1 || !self.has(account, item, false)' 'if !self.has(account, item, false)'
plant book.rs 'self.lots[usize::from(item)] = Some(Lot { owner: to, blocked: false });' 'self.lots[usize::from(item)] = Some(Lot { owner: to, blocked: true });'
plant book.rs 'const ITEMS: u16 = 256;' 'const ITEMS: u16 = 255;'
plant book.rs 'check_account(to)?;
        self.check(from, item, quantity)?;
        if quantity' 'self.check(from, item, quantity)?;
        check_account(to)?;
        if quantity'
# damaged headers and entries, and formats
plant journal.rs 'header.to_block() != *bytes' 'header.to_block()[..255] != bytes[..255]'
plant journal.rs 'bytes[1] = BOOKS;' 'bytes[1] = BOOKS + 1;'
plant journal.rs 'if header.kinds != [register.kind(), cash.kind()]' 'if header.kinds[0] != register.kind()'
plant journal.rs 'device.size() > 2 * pairs' 'device.size() >= 2 * pairs'
plant journal.rs '(1..=MOST_PAIRS)' '(0..=MOST_PAIRS)'
plant journal.rs 'if record(entry, &x) != *bytes' 'if record(entry, &x)[..40] != bytes[..40]'
plant journal.rs 'if bytes != mark(entry)' 'if bytes[..8] != mark(entry)[..8]'
plant journal.rs 'device.write(0, &ZEROS)?;
    device.sync()?;' 'device.write(0, &ZEROS)?;'
plant engine.rs 'engine.ledger.clear();' ''
# slips
plant engine.rs 'State::Refused(_) => Content::Unknown,' 'State::Refused(_) => Content::Known { entries: 0, in_hand: None },'
plant engine.rs '&& self.last_found == Some(x) =>' '=>'
