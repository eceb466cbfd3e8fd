#!/bin/sh
# Plants one mistake after another in a copy of the twin, and shows whether compare finds it.
# usage: ./plant.sh PROGRAM, the proved program
set -eu
cd "$(dirname "$0")"
original=$1
plant() { # file, text, other text
    rm -rf planted/src
    mkdir -p planted
    cp -r twin/Cargo.toml twin/src planted/
    FILE=planted/src/$1 FROM=$2 TO=$3 python3 - <<'P'
import os
p = os.environ["FILE"]; s = open(p).read(); f = os.environ["FROM"]
assert s.count(f) == 1, (p, f, s.count(f))
open(p, "w").write(s.replace(f, os.environ["TO"]))
P
    (cd planted && cargo build --release --offline --quiet --bin compare 2>/dev/null)
    status=0
    planted/target/release/compare "$original" 3000 1 2 > planted/out 2> planted/errors || status=$?
    echo "$1: $2 -> $3"
    echo "    status $status; $(tail -n 1 planted/out)"
    if [ $status -ne 0 ]; then printf '    %s\n' "$(head -n 1 planted/out | cut -c 1-200)"; fi
}
plant engine.rs 'Stands = 1,' 'Stands = 2,'
plant book.rs '1_000_000_000_000
    }' '1_000_000_000_001
    }'
plant book.rs 'ACCOUNTS: u16 = 64' 'ACCOUNTS: u16 = 65'
plant book.rs 'ITEMS: u16 = 16' 'ITEMS: u16 = 17'
plant ledger.rs 'TRADES: u32 = 128' 'TRADES: u32 = 129'
plant ledger.rs '? >= trade.quantity' '? > trade.quantity'
plant ledger.rs '? >= trade.amount' '? > trade.amount'
plant ledger.rs 'self.cash.release(trade.buyer, trade.currency, trade.amount)?' '{}'
plant ledger.rs '_ => matches!(trade.state, Entered | Earmarked | Funded)' '_ => matches!(trade.state, Earmarked | Funded)'
plant ledger.rs 'x.account >= ACCOUNTS || x.counterparty >= ACCOUNTS' 'x.account >= ACCOUNTS'
plant ledger.rs 'x.quantity == 0 || x.amount == 0' 'x.quantity == 0'
plant device.rs '3 => keep(row, BLOCK / 2)' '3 => {}'
plant device.rs '1 => keep(row, BLOCK)' '1 => {}'
plant device.rs '2 => row[0] = 1' '2 => keep(row, BLOCK)'
plant journal.rs 'device.write(record_block(entry), &record(entry, x))?;
    device.sync()?;' 'device.write(record_block(entry), &record(entry, x))?;'
plant engine.rs 'self.entries += 1;
        self.ledger' 'self.ledger'
plant engine.rs 'self.ledger.check(x)?;
        if self.entries >= self.pairs {
            return Err(Refusal::JournalFull.into());
        }' 'if self.entries >= self.pairs {
            return Err(Refusal::JournalFull.into());
        }
        self.ledger.check(x)?;'
plant exam.rs 'PAIRS: u32 = 63' 'PAIRS: u32 = 62'
plant exam.rs 'self.slip = Some(slip);' 'slip.file();'
plant script.rs 'MOST_BYTES: usize = 65_536' 'MOST_BYTES: usize = 65_535'
plant script.rs 'MOST_BYTES: usize = 65_536' 'MOST_BYTES: usize = 65_537'
plant script.rs 'MOST_REMAINS: usize = 8' 'MOST_REMAINS: usize = 9'
plant script.rs 'MOST_REMAINS: usize = 8' 'MOST_REMAINS: usize = 7'
plant script.rs "(field[0] == b'0' && field.len() > 1)" "(field[0] == b'0' && field.len() > 2)"
plant script.rs 'checked_mul(10)?.checked_add(digit)' 'checked_mul(10)?.wrapping_add(digit).into()'
