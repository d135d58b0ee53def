#!/bin/sh
# Mutates the model in many small ways and checks that `compare`, with its default cases and seed, finds each; those of requests
# 1/12 and 2/12 must be found by tests/system_370.rs and tests/which_table.rs too. Those of the desk's model must be found by
# `desk_calls` and by tests/desk.rs, those of the first unbacked page by `first_unbacked` and by tests/first_unbacked.rs, those of
# request 5/12 by `store_clock` and by tests/store_clock.rs, those of many units at a time by `laps`. Not in the gate. Takes some
# minutes. With arguments: only the mutants whose names contain one of these words; the names of the desk's begin with "desk:",
# those of the first unbacked page's with "unbacked:", those of request 5/12 with "clock:", those of many units with "laps:".
set -u
. "$(dirname "$0")/../../tools/plain.sh"
package=$(cd "$(dirname "$0")" && pwd)
DREVOKAS_LIB=$(cd "${DREVOKAS_LIB:-$package/../../target/staticlib}" && pwd) || exit 2
CARGO_TARGET_DIR=target CARGO_INCREMENTAL=1
export DREVOKAS_LIB CARGO_TARGET_DIR CARGO_INCREMENTAL
scratch=$(mktemp -d) || exit 2
trap 'rm -rf "$scratch"' EXIT
mkdir "$scratch/package"
cp -R "$package/src" "$package/tests" "$package/build.rs" "$package/Cargo.toml" "$scratch/package/"
cd "$scratch/package" || exit 2
cargo build --release --offline --quiet || exit 2
cp src/model.rs src/desk.rs "$scratch/"
wanted="$*"
caught=0
missed=0
total=0
# The module that is mutated, and the program and the tests that must find a mutant.
module=model
comparison=compare
suite=system_370

# Whether the mutant is one of those asked for.
is_wanted() {
    [ -n "$wanted" ] || return 0
    for part in $wanted; do
        case "$1" in *"$part"*) return 0 ;; esac
    done
    return 1
}

# mutant NAME SED-SCRIPT [PROGRAM]: must be found by the comparison, or by PROGRAM, which is compare (the comparison), tests or
# both.
mutant() {
    is_wanted "$1" || return
    total=$((total + 1))
    cp "$scratch/model.rs" "$scratch/desk.rs" src/
    sed -E "$2" "$scratch/$module.rs" >"src/$module.rs"
    if cmp -s "$scratch/$module.rs" "src/$module.rs"; then
        echo "MISSED  $1: the script changes nothing"
        missed=$((missed + 1))
        return
    fi
    program=${3:-compare}
    if ! cargo build --release --offline --quiet --bin "$comparison" >"$scratch/build" 2>&1; then
        echo "MISSED  $1: does not build"
        grep -m 3 '^error' "$scratch/build"
        missed=$((missed + 1))
        return
    fi
    found=''
    if [ "$program" != tests ]; then
        "target/release/$comparison" >"$scratch/output" 2>&1
        code=$?
        where=$(sed -n 's/^difference in case \([0-9]*\).*/\1/p' "$scratch/output")
        if [ $code -ne 1 ] || [ -z "$where" ]; then
            echo "MISSED  $1: exit code $code"
            missed=$((missed + 1))
            return
        fi
        found="case $where"
    fi
    if [ "$program" != compare ]; then
        cargo test --release --offline --test "$suite" >"$scratch/output" 2>&1
        where=$(grep -c '^test .* FAILED$' "$scratch/output")
        if [ "$where" -eq 0 ]; then
            echo "MISSED  $1: by the tests"
            missed=$((missed + 1))
            return
        fi
        found="${found:+$found, }tests $where"
    fi
    echo "caught  $1 ($found)"
    caught=$((caught + 1))
}

# equivalent NAME SED-SCRIPT: changes how the model works and not what it does, so the comparison must find nothing.
equivalent() {
    is_wanted "$1" || return
    total=$((total + 1))
    cp "$scratch/model.rs" "$scratch/desk.rs" src/
    sed -E "$2" "$scratch/$module.rs" >"src/$module.rs"
    if cargo build --release --offline --quiet --bin "$comparison" >"$scratch/build" 2>&1 && "target/release/$comparison" >"$scratch/output" 2>&1; then
        echo "alike   $1"
        caught=$((caught + 1))
    else
        echo "MISSED  $1: does not build, or differs"
        missed=$((missed + 1))
    fi
}

# Before each unit.
mutant "comparator due when equal" 's/self\.clock\) > comparator/self.clock) >= comparator/'
mutant "clock compared as signed" 's/guest_clock\(record, self\.clock\) > comparator/guest_clock(record, self.clock) as i64 > comparator as i64/'
mutant "timer due at zero" 's/TIMER\) as i64\) < 0/TIMER) as i64) <= 0/'
mutant "comparator ignores CR0 bit 20" 's/external && bit\(control_register_0, 20\) &&/external \&\&/'
mutant "external request ignores PSW bit 7" 's/\[INTERVENTION\] & 0x01 != 0 && external/[INTERVENTION] \& 0x01 != 0/'
mutant "stop request before the budget" 's/if units == budget \{/if units == budget \&\& guest.record[INTERVENTION] \& 0x04 == 0 {/'
mutant "entry tested after the budget" '/^pub fn run\(/,/^}/ s/if !entry_is_good\(record\)/if budget > 0 \&\& !entry_is_good(record)/'
mutant "PSW bit 31 not tested" 's/ones\(24, 31\)/ones(24, 30)/'
mutant "24-bit PSW with high bits taken" 's/\|\| !psw_bit\(record, 32\) && ones\(33, 39\)//'
mutant "PSW bit 16 not tested" 's/psw_bit\(record, 1\) \|\| psw_bit\(record, 16\)/psw_bit(record, 1)/'
mutant "stop request after PSW bit 16" 's/if record\[INTERVENTION\] & 0x04 != 0 \{/if record[INTERVENTION] \& 0x04 != 0 \&\& !psw_bit(record, 16) {/'
mutant "malformed PSW not seen in the wait state" 's/if psw_is_malformed\(record\) \{/if psw_is_malformed(record) \&\& !psw_bit(record, 14) {/'
mutant "timer before comparator" 's/if external && bit\(control_register_0, 20\) && guest_clock\(record, self\.clock\) > comparator/if external \&\& bit(control_register_0, 20) \&\& guest_clock(record, self.clock) > comparator \&\& !(bit(control_register_0, 21) \&\& (doubleword(record, TIMER) as i64) < 0)/'
mutant "I/O request before the external request" 's/if record\[INTERVENTION\] & 0x01 != 0 && external \{/if record[INTERVENTION] \& 0x01 != 0 \&\& external \&\& !(record[INTERVENTION] \& 0x02 != 0 \&\& psw_bit(record, 6)) {/'

# Time.
mutant "time charged on an exit" '/fn intercept\(/a let timer = doubleword(self.record, TIMER).wrapping_sub(self.time as u64); set_doubleword(self.record, TIMER, timer);'
mutant "STCK after the charge" 's/instruction\(&view, &mut unit, self\.clock\)/instruction(\&view, \&mut unit, self.clock.wrapping_add(self.time as u64))/'
mutant "STPT after a unit of time" 's/doubleword\(record, TIMER\)\.to_be_bytes/doubleword(record, TIMER).wrapping_sub(1).to_be_bytes/'
mutant "SPT not charged" 's/set_doubleword\(&mut unit\.record, TIMER, doubleword\(&view\.fetch\(&places\), 0\)\)/set_doubleword(\&mut unit.record, TIMER, doubleword(\&view.fetch(\&places), 0).wrapping_add(1))/'
mutant "epoch subtracted" 's/clock\.wrapping_add\(doubleword\(record, EPOCH\)\)/clock.wrapping_sub(doubleword(record, EPOCH))/'
mutant "clock stands still" 's/self\.clock = self\.clock\.wrapping_add\(self\.time as u64\)/self.clock = self.clock/'

# Addresses.
mutant "only the first byte of an operand tested" 's/places\.push\(self\.access\(address\.wrapping_add\(offset\), access\)\?\)/places.push(match self.access(address.wrapping_add(offset), access) { Err(_) if offset > 0 => places[0], result => result? })/'
mutant "no wrap of operand bytes" 's/let logical = wrap\(self\.record, address\)/let logical = address/'
mutant "31-bit wrap in 24-bit mode" 's/address & 0x00FF_FFFF/address \& 0x7FFF_FFFF/'
mutant "prefixing one way" 's/if real & 0x7FFF_F000 == prefix \{/if false {/'
mutant "guest table references not prefixed" 's/match self\.real_to_host\(real, walk\) \{/let address = origin_bytes(self.record) + real; let unprefixed = || self.host_translate(address).map_err(|(code, table)| Failure::Host(Fault { code, address, table, walk }));\nmatch self.real_to_host(real, walk).and_then(|_| unprefixed()) {/'
mutant "guest table entry wraps at 2^31" 's/let segment_at = \(designation & 0x7FFF_F000\) \+ 4 \* segment_index;/let segment_at = (designation \& 0x7FFF_F000) + 4 * segment_index \& 0x7FFF_FFFF;/'
mutant "guest page table entry wraps at 2^31" 's/let page_at = \(segment_entry & 0x7FFF_FFC0\) \+ 4 \* page_index;/let page_at = (segment_entry \& 0x7FFF_FFC0) + 4 * page_index \& 0x7FFF_FFFF;/'
mutant "origin added before the extent test" 's/if real as u64 >= extent_bytes/if (origin_bytes(self.record) as u64 + real as u64) >= extent_bytes/'
mutant "low-address protection below 511" 's/logical <= 511/logical < 511/'
mutant "low-address protection of 512 too" 's/logical <= 511/logical <= 512/'
mutant "low-address protection of fetches" 's/if access == Access::Store && logical <= 511/if logical <= 511/'
mutant "low-address protection after translation" '/if access == Access::Store && logical <= 511/,/^        }/ d; s/^        let \(real, guest_protected\) = self\.guest_translate\(logical\)\?;/&\nif access == Access::Store \&\& real <= 511 \&\& bit(control_register(self.record, 0), 3) { return Err(Failure::Guest(PROTECTION, 0, Table::NONE)); }/'
mutant "CR0 bit 12 not tested" 's/>> 19 & 0x1F != 0b10110/>> 20 \& 0xF != 0b1011/'
mutant "guest segment length off by one" 's/segment_index >> 4 > designation & 0x7F/segment_index >> 4 >= designation \& 0x7F/'
mutant "guest page-table length ignored" '/fn guest_translate/,/fn access/ s/page_index >> 4 > segment_entry & 0xF/page_index >> 4 > 0xF/'
mutant "host page-table length ignored" '/fn host_translate/,/fn host_word/ s/page_index >> 4 > segment_entry & 0xF/page_index >> 4 > 0xF/'
mutant "host segment format before invalid" '/fn host_translate/,/fn host_word/ s/if bit\(segment_entry, 26\)/if bit(segment_entry, 26) \&\& !bit(segment_entry, 0)/'
mutant "guest page format before invalid" '/fn guest_translate/,/fn access/ s/if bit\(page_entry, 21\)/if bit(page_entry, 21) \&\& !bit(page_entry, 20)/'
mutant "page bit 24 tested" '/fn guest_translate/,/fn access/ s/\|\| bit\(page_entry, 23\)/|| bit(page_entry, 23) || bit(page_entry, 24)/'
mutant "page bit 23 not tested" '/fn guest_translate/,/fn access/ s/\|\| bit\(page_entry, 23\)//'
mutant "translation address not cut" 's/let page_address = logical & 0x7FFF_F000/let page_address = logical/'
mutant "guest page protection before the host page" 's/^        let \(absolute, host_protected\) = self\.real_to_host\(real, Walk::Byte\)\?;/if guest_protected \&\& access == Access::Store { return Err(Failure::Guest(PROTECTION, 0, Table::NONE)); }\n&/'
mutant "key compared on wrong bits" 's/access_key != storage_key >> 4/access_key != storage_key \& 0xF/'
mutant "fetch protection not applied" 's/access == Access::Store \|\| storage_key & 0x08 != 0/access == Access::Store/'
mutant "fetch-protection override applied" 's/if access_key != 0 && access_key != storage_key >> 4 \{/if access_key != 0 \&\& access_key != storage_key >> 4 \&\& !(access == Access::Fetch \&\& logical < 2048 \&\& bit(control_register(self.record, 0), 6)) {/'
mutant "fetch protection always" 's/access == Access::Store \|\| storage_key & 0x08 != 0/true/'
mutant "host protection on fetches" '/fn access\(/,/^    }/ s/if access == Access::Store && host_protected/if host_protected/'
mutant "host protection before the key" 's/^        let access_key = self\.record\[PSW \+ 1\] >> 4;/if access == Access::Store \&\& host_protected { return Err(self.host_protection(real, Walk::Byte)); }\n&/'
mutant "host address of a fault without origin" 's/Failure::Host\(Fault \{ code, address, table, walk \}\)/Failure::Host(Fault { code, address: address - origin_bytes(self.record), table, walk })/'
# These keep the storage as it was when the run began, and read tables there.
snapshot='s/^pub fn run\(/thread_local! { static START: std::cell::RefCell<Vec<u8>> = const { std::cell::RefCell::new(Vec::new()) }; }\n&/; s/^    let view = View \{ record, storage, keys, designation \};/START.with(|start| *start.borrow_mut() = storage.to_vec());\n&/; s/^    record\[RESULT_CODE\.\.66\]\.fill\(0\);/&\nSTART.with(|start| *start.borrow_mut() = storage.to_vec());/'
mutant "host tables as at the start of the run" "$snapshot"'; s/Ok\(word\(self\.storage, address as usize\)\)/Ok(START.with(|start| word(\&start.borrow(), address as usize)))/'
mutant "guest tables as at the start of the run" "$snapshot"'; s/Ok\(word\(self\.storage, absolute as usize\)\)/Ok(START.with(|start| word(\&start.borrow(), absolute as usize)))/'

# Marks.
mutant "marks on exits" 's/^                advance\(self\.record, ilc\);/for (frame, _) in unit.marks { self.keys[frame] |= 0x04; }\n&/'
mutant "no marks of text on an exception" 's/^                    unit\.stores\.clear\(\);/&\nunit.marks.clear();/'
mutant "fetch sets the change bit" '/Operation::Load =>/,/^        }/ s/unit\.mark\(&places, false\)/unit.mark(\&places, true)/'
mutant "store does not set the reference bit" 's/^            self\.keys\[frame\] \|= 0x04;/if !stored { self.keys[frame] |= 0x04; }/'

# Instructions.
mutant "ILC of a later halfword" 's/return exception\(code, ilc, address, &text\)/return exception(code, 1 + fetched, address, \&text)/'
mutant "odd address with ILC 0" 's/return exception\(SPECIFICATION, 1, 0, &text\)/return exception(SPECIFICATION, 0, 0, \&text)/'
mutant "address not wrapped when advanced" '/^fn set_instruction_address/,/^}/ s/let address = wrap\(record, address\)/let address = address \& 0x7FFF_FFFF/'
mutant "translation exception advances" 's/if code != SEGMENT_TRANSLATION && code != PAGE_TRANSLATION/if true/'
mutant "SVC old address not advanced" 's/Operation::SupervisorCall => return Ok/Operation::SupervisorCall => { unit.record = before_advance(record); return Ok/; s/SupervisorCall \{ number: text\[1\] \}\),/SupervisorCall { number: text[1] }); }/; s/^fn guest_clock/fn before_advance(record: \&[u8]) -> Vec<u8> { record.to_vec() }\n&/'
mutant "SVC flag 3 ignored" 's/\(0\.\.3\)\.any/(0..2).any/'
mutant "LCTL order" 's/set_word\(&mut unit\.record, CONTROL_REGISTERS \+ 4 \* register, word\(&bytes, 4 \* n\)\)/set_word(\&mut unit.record, CONTROL_REGISTERS + 4 * register, word(\&bytes, 4 * (range.len() - 1 - n)))/'
mutant "LCTL control of the first register only" 's/control_range\(text\)\.iter\(\)\.any\(/control_range(text).iter().take(1).any(/'
mutant "LCTL alignment to 8" '/Operation::LoadControl => \{$/,/^        }/ s/address % 4 != 0/address % 8 != 0/'
mutant "LPSW not aligned" '/Operation::LoadPsw => \{$/,/^        }/ s/address % 8 != 0/false/'
mutant "overflow loses its result" 's/if code != FIXED_POINT_OVERFLOW \{/if true {/'
mutant "overflow without condition code 3" 's/return \(result, 3, true\)/return (result, if (result as i32) < 0 { 1 } else { 2 }, true)/'
mutant "overflow interrupts without PSW bit 20" 's/if overflow && overflow_is_enabled\(record\)/if overflow/'
mutant "overflow kept at a host fault" '/fn program_exception/,/^    }/ s/Err\(failure\) => self\.host_fault\(failure\),/Err(failure) => { if code == FIXED_POINT_OVERFLOW { self.record[GENERAL_REGISTERS..].copy_from_slice(\&unit.record[GENERAL_REGISTERS..]); } self.host_fault(failure) }/'
mutant "STCK leaves the condition code" '/Operation::StoreClock =>/,/^        }/ s/set_condition_code\(&mut unit\.record, 0\);//'
mutant "BCR branches on register 0" 's/if second != 0 && first as u8/if first as u8/'
mutant "LA not cut" 's/wrap\(record, index\.wrapping_add\(base_and_displacement\(record, text\)\)\)/index.wrapping_add(base_and_displacement(record, text))/'
mutant "index register 0 used" 's/let index = if index == 0 \{ 0 \} else \{ general_register\(record, index\) \}/let index = general_register(record, index)/'
mutant "STCK privileged" 's/\(Operation::StoreClock, false\)/(Operation::StoreClock, true)/'
mutant "interception before privilege" 's/if privileged && psw_bit\(record, 15\)/if privileged \&\& psw_bit(record, 15) \&\& operation != Operation::Mandatory/'
mutant "B23C not listed" 's/0x30\.\.=0x3C/0x30..=0x3B/'
mutant "ILC not shifted in storage" 's/vec!\[0, ilc << 1, 0, code\]/vec![0, ilc, 0, code]/'
mutant "operation exception as code 8 first" 's/if code == OPERATION && controls & 0x80 != 0/if code == OPERATION \&\& controls \& 0xC0 == 0x80/'
mutant "new PSW accessed before the old" 's/^    let old_places = view\.area\(old, 8, Access::Store\)\?;/view.area(new, 8, Access::Fetch)?;\n&/'
mutant "code 8 with the text" '/fn program_exception/,/^    }/ s/^            self\.record\[RESULT_INTERRUPTION \+ 1\] = code;/&\nself.record[RESULT_TEXT..RESULT_TEXT + text.len()].copy_from_slice(text);/'
mutant "results of the last run kept" 's/record\[RESULT_CODE\.\.66\]\.fill\(0\)/record[RESULT_CODE..65].fill(0)/'

# Refusals and entry.
mutant "greatest time refused" 's/time > 1_048_576/time >= 1_048_576/'
mutant "greatest storage refused" 's/storage_len > 4096 \* FRAME/storage_len >= 4096 * FRAME/'
mutant "reserved bytes before the numbers" '/^pub fn refuse_run/,/^}/ s/\.or_else\(\|\| refuse_numbers\(budget, time\)\)/.or_else(|| refuse_reserved(record)).or_else(|| refuse_numbers(budget, time))/'
mutant "prefix bit 0 counts" 's/word\(record, PREFIX\) & 0x7FFF_F000/word(record, PREFIX) \& 0xFFFF_F000/'
mutant "access kind before the reserved bytes" '/^pub fn translate/,/^}/ s/\.or_else\(\|\| refuse_reserved\(record\)\)/.or_else(|| if access > 2 { Some(8) } else { None }).or_else(|| refuse_reserved(record))/'
mutant "preferred guest taken" 's/ \|\| record\[MODE\] & 0x02 != 0//'
mutant "prefix block at the extent taken" 's/prefix\(record\) as u64 \+ 4096 <= extent_bytes/prefix(record) as u64 <= extent_bytes/'

# Request 1/12: the record.
mutant "mode 01 in 200 bytes taken" 's/system_370\(record\) && record\.len\(\) == 208/system_370(record)/' both
mutant "mode 01 not taken" 's/ \|\| system_370\(record\) && record\.len\(\) == 208//' both
mutant "mode 11 taken" 's/let mode_is_installed = /let mode_is_installed = record[MODE] \& 0x0C == 0x0C || /' both
mutant "field 200 with 208 bytes taken" 's/\|\| halfword\(record, 0\) as usize != length/|| halfword(record, 0) as usize != length \&\& !(length == 208 \&\& halfword(record, 0) == 200)/' both
mutant "field 208 with 200 bytes taken" 's/\|\| halfword\(record, 0\) as usize != length/|| halfword(record, 0) as usize != length \&\& !(length == 200 \&\& halfword(record, 0) == 208)/' both
mutant "204 to 209 bytes taken" 's/length != 200 && length != 208 \|\|/length != 200 \&\& !(204..=209).contains(\&length) ||/; s/halfword\(record, 0\) as usize != length/!(length != 200 \&\& length != 208 || halfword(record, 0) as usize == length)/' both
mutant "version 1 in 208 bytes taken" 's/if record\[VERSION\] != if/if !(length == 208 \&\& record[VERSION] == 1) \&\& record[VERSION] != if/' both
mutant "version 2 in 200 bytes taken" 's/if record\[VERSION\] != if/if !(length == 200 \&\& record[VERSION] == 2) \&\& record[VERSION] != if/' both
mutant "byte 201 not tested" 's/record\[201\.\.204\]/record[202..204]/' both
mutant "byte 203 not tested" 's/record\[201\.\.204\]/record[201..203]/' both
mutant "byte 200 tested" 's/record\[201\.\.204\]/record[200..204]/' both
mutant "residue of 40,960,000 taken" 's/word\(record, RESIDUE\) >= RESIDUE_LIMIT/word(record, RESIDUE) > RESIDUE_LIMIT/' both
mutant "residue of 40,959,999 refused" 's/word\(record, RESIDUE\) >= RESIDUE_LIMIT/word(record, RESIDUE) >= RESIDUE_LIMIT - 1/' both
mutant "residue read as signed" 's/word\(record, RESIDUE\) >= RESIDUE_LIMIT/word(record, RESIDUE) as i32 >= RESIDUE_LIMIT as i32/' both
mutant "new reserved bytes in mode 01 alone" 's/^    if record\.len\(\) == 208 \{/    if record.len() == 208 \&\& system_370(record) {/' both
mutant "new reserved bytes with the timer active alone" 's/^    if record\.len\(\) == 208 \{/    if record.len() == 208 \&\& interval_timer_is_active(record) {/' both
mutant "prefix bit 1 not tested" 's/word\(record, PREFIX\) & 0x7F00_0000/word(record, PREFIX) \& 0x3F00_0000/' both
mutant "prefix bit 7 not tested" 's/word\(record, PREFIX\) & 0x7F00_0000/word(record, PREFIX) \& 0x7E00_0000/' both
mutant "prefix bit 8 tested" 's/word\(record, PREFIX\) & 0x7F00_0000/word(record, PREFIX) \& 0x7F80_0000/' both
mutant "prefix bit 0 tested" 's/word\(record, PREFIX\) & 0x7F00_0000/word(record, PREFIX) \& 0xFF00_0000/' both
mutant "prefix bits 1-7 tested in 370-XA mode" 's/system_370\(record\) && word\(record, PREFIX\)/word(record, PREFIX)/' both
mutant "DAT on fails at entry" '/^pub fn entry_is_good/,/^}/ s/^    let origin =/    if form(record) == Form::Ec \&\& psw_bit(record, 5) { return false; }\n&/' both

# Request 1/12: the PSW.
mutant "every PSW in mode 01 is EC" 's/\(true, false\) => Form::Bc/(true, false) => Form::Ec/' both
mutant "every PSW in mode 01 is BC" 's/\(true, true\) => Form::Ec/(true, true) => Form::Bc/' both
mutant "31-bit addresses by bit 32 in mode 01" 's/psw_bit\(record, 32\) && !system_370\(record\)/psw_bit(record, 32)/' both
mutant "24-bit addresses in 370-XA mode" 's/psw_bit\(record, 32\) && !system_370\(record\)/psw_bit(record, 32) \&\& false/' both
mutant "address field from bit 33 on" '/^fn address_field/,/^}/ s/0x00FF_FFFF/0x7FFF_FFFF/' both
mutant "bits 33-39 cleared by an advance" 's/let left = word\(record, PSW \+ 4\) & !address_field\(record\)/let left = word(record, PSW + 4) \& 0x8000_0000/' both
mutant "advance carries into bit 39" '/^fn set_instruction_address/,/^}/ s/let address = wrap\(record, address\)/let address = if system_370(record) { address \& 0x01FF_FFFF } else { wrap(record, address) }/' both
mutant "branch puts bits 32-39" '/^fn set_instruction_address/,/^}/ s/left \| address\)/if system_370(record) { left | wide } else { left | address })/; /^fn set_instruction_address/,/^}/ s/^    let left/    let wide = address;\n&/' both
mutant "condition code of a BC PSW in bits 18-19" '/^fn condition_byte/,/^}/ s/PSW \+ 4/PSW + 2/' both
mutant "condition code of an EC PSW in bits 34-35" '/^fn condition_byte/,/^}/ s/form\(record\) == Form::Bc/system_370(record)/' both
mutant "overflow by bit 20 of a BC PSW" '/^fn overflow_is_enabled/,/^}/ s/record\[condition_byte\(record\)\]/record[PSW + 2]/' both
mutant "overflow by bit 37 of a BC PSW" '/^fn overflow_is_enabled/,/^}/ s/& 0x08/\& (if form(record) == Form::Bc { 0x04 } else { 0x08 })/' both
mutant "step 2 sees BC PSWs" 's/form != Form::Bc && \(psw_bit\(record, 1\) \|\| psw_bit\(record, 16\)\)/(psw_bit(record, 1) || psw_bit(record, 16))/' both
mutant "step 2 does not see EC bits 1 and 16" 's/form != Form::Bc && \(psw_bit\(record, 1\)/form == Form::Xa \&\& (psw_bit(record, 1)/' both
mutant "step 2 does not see EC bit 16" 's/\(psw_bit\(record, 1\) \|\| psw_bit\(record, 16\)\)/(psw_bit(record, 1) || form == Form::Xa \&\& psw_bit(record, 16))/' both
mutant "DAT on in mode 01 is no code 32" 's/ \|\| form == Form::Ec && psw_bit\(record, 5\)//' both
mutant "bit 5 of a BC PSW is code 32" 's/ \|\| form == Form::Ec && psw_bit\(record, 5\)/ || form != Form::Xa \&\& psw_bit(record, 5)/' both
mutant "bit 5 of a BC PSW is DAT" 's/if system_370\(self\.record\) \|\| !psw_bit\(self\.record, 5\)/if !psw_bit(self.record, 5)/' both
mutant "DAT on before the stop request" 's/^        if record\[INTERVENTION\] & 0x04 != 0 \{/if form(record) == Form::Ec \&\& psw_bit(record, 5) { return self.intercept(32); }\n&/' both
mutant "step 3 before step 2 in mode 01" 's/^        if form != Form::Bc && \(psw_bit/        if !(form == Form::Ec \&\& psw_is_malformed(record)) \&\& (form != Form::Bc \&\& (psw_bit/; s/\|\| form == Form::Ec && psw_bit\(record, 5\) \{/|| form == Form::Ec \&\& psw_bit(record, 5)) {/' both
mutant "EC bit 0 not tested" 's/Form::Ec => return psw_bit\(record, 0\) \|\|/Form::Ec => return/' both
mutant "EC bit 2 not tested" 's/(Form::Ec => return .*)ones\(2, 4\)/\1ones(3, 4)/' both
mutant "EC bit 4 not tested" 's/(Form::Ec => return .*)ones\(2, 4\)/\1ones(2, 3)/' both
mutant "EC bit 17 not tested" 's/(Form::Ec => return .*)psw_bit\(record, 17\) \|\| /\1/' both
mutant "EC bit 18 tested" 's/(Form::Ec => return .*)psw_bit\(record, 17\)/\1ones(17, 18)/' both
mutant "EC bit 24 not tested" 's/ones\(24, 39\)/ones(25, 39)/' both
mutant "EC bit 39 not tested" 's/ones\(24, 39\)/ones(24, 38)/' both
mutant "EC bit 32 taken" 's/ones\(24, 39\)/(ones(24, 31) || ones(33, 39))/' both
mutant "EC bits 32-39 taken" 's/ones\(24, 39\)/ones(24, 31)/' both
mutant "EC PSW tested as in 370-XA" 's/Form::Ec => return .*,/Form::Ec => {}/' both
mutant "BC PSW tested as in 370-XA" 's/Form::Bc => return false,/Form::Bc => {}/' both
mutant "BC PSW tested as EC" 's/Form::Bc => return false,/Form::Bc => return ones(24, 31),/' both
mutant "I/O request by bit 6 of a BC PSW alone" 's/let first_channel = if form == Form::Bc \{ 0 \}/let first_channel = if form == Form::Bc { 6 }/' both
mutant "I/O request not by bit 0" 's/let first_channel = if form == Form::Bc \{ 0 \}/let first_channel = if form == Form::Bc { 1 }/' both
mutant "I/O request not by bit 6 of a BC PSW" 's/\(first_channel\.\.=6\)\.any/(first_channel..=if form == Form::Bc { 5 } else { 6 }).any/' both
mutant "I/O request by bit 7 of a BC PSW" 's/\(first_channel\.\.=6\)\.any/(first_channel..=if form == Form::Bc { 7 } else { 6 }).any/' both
mutant "I/O request by bit 5 of a 370-XA PSW" 's/let first_channel = if form == Form::Bc \{ 0 \} else \{ 6 \}/let first_channel = if form == Form::Bc { 0 } else { 5 }/'

# Request 1/12: interruptions.
mutant "fields stored with a BC PSW" 's/^        fields = &\[\];//' both
mutant "no code in the old BC PSW" 's/^        old_psw\[2\.\.4\]\.copy_from_slice\(&fields\[2\.\.4\]\);//' both
mutant "no ILC in the old BC PSW" 's/^        old_psw\[4\] = .*//' both
mutant "ILC added to the old bits 32-33" 's/old_psw\[4\] & 0x3F/old_psw[4]/' both
mutant "ILC in bits 33-34" 's/fields\[1\] >> 1 << 6/fields[1] >> 1 << 5/' both
mutant "condition code lost in the old BC PSW" 's/old_psw\[4\] & 0x3F/old_psw[4] \& 0x0F/' both
mutant "code over the high byte of the old BC PSW's code" 's/old_psw\[2\.\.4\]\.copy_from_slice\(&fields\[2\.\.4\]\)/old_psw[3] = fields[3]/' both
mutant "EC PSW stored as BC" '/^fn interrupt/,/^}/ s/form\(view\.record\) == Form::Bc/form(view.record) != Form::Xa/' both
mutant "form by the new PSW" '/^fn interrupt/,/^}/ s/form\(view\.record\) == Form::Bc/system_370(view.record) \&\& view.fetch(\&view.area(new, 8, Access::Fetch)?)[1] \& 0x08 == 0/' both
mutant "code 8 puts the code into a BC PSW" 's/^            return self\.intercept\(8\);/if form(self.record) == Form::Bc { self.record[PSW + 3] = code; }\n&/' both
mutant "code 8 puts the ILC into a BC PSW" 's/^            return self\.intercept\(8\);/if form(self.record) == Form::Bc { self.record[PSW + 4] = self.record[PSW + 4] \& 0x3F | ilc << 6; }\n&/' both
mutant "code 44 puts the ILC into a BC PSW" 's/^            return self\.intercept\(44\);/if form(self.record) == Form::Bc { self.record[PSW + 4] = self.record[PSW + 4] \& 0x3F | ilc << 6; }\n&/' both
mutant "code 4 puts the ILC into a BC PSW" 's/^                self\.intercept\(4\)/if form == Form::Bc { self.record[PSW + 4] = self.record[PSW + 4] \& 0x3F | ilc << 6; }\n&/' both
mutant "code 20 puts the code into a BC PSW" '/fn intercept_external/,/^    }/ s/^        self\.intercept\(20\)/if form(self.record) == Form::Bc { self.record[PSW + 2..PSW + 4].copy_from_slice(\&interruption.to_be_bytes()); }\n&/' both
mutant "LPSW leaves bits 16-33 of a BC PSW zero" '/Operation::LoadPsw => \{$/,/^        }/ s/^            set_doubleword\(.*/&\nif form(\&unit.record) == Form::Bc { unit.record[PSW + 2..PSW + 4].fill(0); unit.record[PSW + 4] \&= 0x3F; }/' both
mutant "a new BC PSW loses bits 16-33" '/^fn interrupt/,/^}/ s/^    set_doubleword\(.*/&\nif form(\&unit.record) == Form::Bc { unit.record[PSW + 2..PSW + 4].fill(0); unit.record[PSW + 4] \&= 0x3F; }/' both

# Request 1/12: instructions.
mutant "9C not listed in mode 01" 's/0x9C\.\.=0x9F if/0x9D..=0x9F if/' both
mutant "9F not listed in mode 01" 's/0x9C\.\.=0x9F if/0x9C..=0x9E if/' both
mutant "A0 listed in mode 01" 's/0x9C\.\.=0x9F if/0x9C..=0xA0 if/' both
mutant "9C-9F by the second byte too" 's/0x9C\.\.=0x9F if system_370/0x9C..=0x9F if system_370 \&\& text[1] < 2/' both
mutant "9C-9F not privileged" 's/(0x9C\.\.=0x9F if system_370 => \(Operation::Mandatory), true/\1, false/' both
mutant "9C-9F in 370-XA mode" 's/0x9C\.\.=0x9F if system_370/0x9C..=0x9F/' both
mutant "B230-B23C code 4 in mode 01" 's/0x30\.\.=0x3C if !system_370/0x30..=0x3C/' both
mutant "B23C code 4 in mode 01" 's/0x30\.\.=0x3C if !system_370/0x30..=0x3C if !system_370 || text[1] == 0x3C/' both
mutant "B230-B23C privileged in mode 01" 's/^        return exception\(OPERATION, ilc, 0, &text\);/if system_370(record) \&\& text[0] == 0xB2 \&\& (0x30..=0x3C).contains(\&text[1]) \&\& psw_bit(record, 15) { return exception(PRIVILEGED_OPERATION, ilc, 0, \&text); }\n&/' both
mutant "DIAGNOSE not listed in mode 01" 's/0x83 => \(Operation::Mandatory/0x83 if !system_370 => (Operation::Mandatory/' both
mutant "SIGP not listed in mode 01" 's/0xAE => \(Operation::Mandatory/0xAE if !system_370 => (Operation::Mandatory/' both
mutant "no low-address protection in mode 01" 's/if access == Access::Store && logical <= 511/if access == Access::Store \&\& !system_370(self.record) \&\& logical <= 511/' both
mutant "no key protection in mode 01" 's/if access_key != 0 && access_key != storage_key/if access_key != 0 \&\& !system_370(self.record) \&\& access_key != storage_key/' both

# Request 1/12: the interval timer.
mutant "active with bit 7 one" 's/record\[MODE\] & 0x01 == 0/record[MODE] \& 0x01 != 0/' both
mutant "active whatever bit 7 is" 's/system_370\(record\) && record\[MODE\] & 0x01 == 0/system_370(record)/' both
mutant "active in 370-XA mode" 's/system_370\(record\) && record\[MODE\] & 0x01 == 0/record.len() == 208 \&\& record[MODE] \& 0x01 == 0/' both
mutant "residue by the time itself" 's/RESIDUE\) \+ 3 \* self\.time/RESIDUE) + self.time/' both
mutant "fall above 40,960,000 alone" 's/if residue < RESIDUE_LIMIT/if residue <= RESIDUE_LIMIT/' both
mutant "residue cleared by a fall" 's/RESIDUE, residue - RESIDUE_LIMIT/RESIDUE, residue * 0/' both
mutant "fall by 255" 's/before\.wrapping_sub\(256\)/before.wrapping_sub(255)/' both
mutant "fall stops at zero" 's/before\.wrapping_sub\(256\)/before.saturating_sub(256)/' both
mutant "fall stops at the least number" 's/before\.wrapping_sub\(256\)/(before as i32).saturating_sub(256) as u32/' both
mutant "fall of the upper three bytes" 's/before\.wrapping_sub\(256\)/before.wrapping_sub(256) \& 0xFFFF_FF00/' both
mutant "T while negative" 's/before as i32 >= 0 && \(after as i32\) < 0/(after as i32) < 0/' both
mutant "T from positive alone" 's/before as i32 >= 0 && /before as i32 > 0 \&\& /' both
mutant "T at the wrap" 's/before as i32 >= 0 && \(after as i32\) < 0/(before as i32 >= 0) != (after as i32 >= 0)/' both
mutant "T taken back by a fall" 's/^        if before as i32 >= 0 && /self.record[TIMER_REQUEST] \&= 0x7F;\n&/' both
mutant "T sets the whole byte" 's/self\.record\[TIMER_REQUEST\] \|= 0x80/self.record[TIMER_REQUEST] = 0x80/' both
mutant "T is bit 1" 's/TIMER_REQUEST\] \|= 0x80/TIMER_REQUEST] |= 0x40/' both
mutant "T pending without PSW bit 7" 's/if external && bit\(control_register_0, 24\) && pending/if bit(control_register_0, 24) \&\& pending/' both
mutant "T pending without CR0 bit 24" 's/bit\(control_register_0, 24\) && pending/pending/' both
mutant "T pending by CR0 bit 25" 's/bit\(control_register_0, 24\) && pending/bit(control_register_0, 25) \&\& pending/' both
mutant "T pending with the timer inactive" 's/let pending = interval_timer_is_active\(record\) &&/let pending = system_370(record) \&\&/' both
mutant "T pending in 370-XA mode" 's/let pending = interval_timer_is_active\(record\) &&/let pending = record.len() == 208 \&\& (!system_370(record) || interval_timer_is_active(record)) \&\&/' both
mutant "T pending by any bit of its byte" 's/record\[TIMER_REQUEST\] & 0x80 != 0/record[TIMER_REQUEST] != 0/' both
mutant "T not cleared" 's/^            self\.record\[TIMER_REQUEST\] &= 0x7F;//' both
mutant "T clears its whole byte" 's/self\.record\[TIMER_REQUEST\] &= 0x7F/self.record[TIMER_REQUEST] = 0/' both
mutant "T cleared by every code 20" '/fn intercept_external/,/^    }/ s/^        self\.intercept\(20\)/if self.record.len() == 208 { self.record[TIMER_REQUEST] \&= 0x7F; }\n&/' both
mutant "T with interruption code 1080 hex" 's/intercept_external\(0x0080\)/intercept_external(0x1080)/' both
mutant "T before the CPU timer" 's/if external && bit\(control_register_0, 21\) && \(doubleword\(record, TIMER\) as i64\) < 0 \{/if external \&\& bit(control_register_0, 21) \&\& (doubleword(record, TIMER) as i64) < 0 \&\& !(bit(control_register_0, 24) \&\& interval_timer_is_active(record) \&\& record[TIMER_REQUEST] \& 0x80 != 0) {/' both
mutant "T after the external request" 's/bit\(control_register_0, 24\) && pending \{/bit(control_register_0, 24) \&\& pending \&\& record[INTERVENTION] \& 0x01 == 0 {/' both
mutant "T after the I/O request" 's/bit\(control_register_0, 24\) && pending \{/bit(control_register_0, 24) \&\& pending \&\& !(record[INTERVENTION] \& 0x02 != 0 \&\& psw_bit(record, 6)) {/' both
mutant "T after the wait state" 's/bit\(control_register_0, 24\) && pending \{/bit(control_register_0, 24) \&\& pending \&\& !psw_bit(record, 14) {/' both
mutant "exits add to the residue" '/fn intercept\(/a if interval_timer_is_active(self.record) { let residue = (word(self.record, RESIDUE) + 3 * self.time) % RESIDUE_LIMIT; set_word(self.record, RESIDUE, residue); }' both
mutant "interruptions add nothing" 's/let interval_timer = match self\.add_to_residue\(&mut unit\) \{/let interval_timer = match if interruption.is_some() { Ok(None) } else { self.add_to_residue(\&mut unit) } {/' both
mutant "a malformed PSW adds nothing" 's/let interval_timer = match self\.add_to_residue\(&mut unit\) \{/let interval_timer = match if psw_is_malformed(self.record) { Ok(None) } else { self.add_to_residue(\&mut unit) } {/' both
mutant "word at real 84" 's/view\.area\(80, 4, Access::Store\)/view.area(84, 4, Access::Store)/' both
mutant "word at absolute 80" 's/view\.area\(80, 4, Access::Store\)/view.area(view.prefixed(80), 4, Access::Store)/' both
mutant "word looked for in each unit" 's/^        let residue = word\(self\.record, RESIDUE\) \+ 3 \* self\.time;/View { record: self.record, storage: self.storage, keys: self.keys, designation: self.designation }.area(80, 4, Access::Store)?;\n&/' both
mutant "word's host page protection skipped" 's/view\.area\(80, 4, Access::Store\)/view.area(80, 4, Access::Fetch)/' both
mutant "word under low-address protection" 's/^        view\.area\(80, 4, Access::Store\)/if bit(control_register(self.record, 0), 3) { return Ok(None); }\n&/' both
mutant "word under its key" 's/^        view\.area\(80, 4, Access::Store\)/if let Ok(places) = view.area(80, 1, Access::Fetch) { let key = self.keys[places[0] as usize \/ FRAME] >> 4; let own = self.record[PSW + 1] >> 4; if own != 0 \&\& own != key { return Ok(None); } }\n&/' both
mutant "word's frame marked as referenced" 's/^        self\.events\.falls \+= 1;/&\nself.keys[places[0] as usize \/ FRAME] |= 0x04;/' both
mutant "word's frame marked as changed" 's/^        self\.events\.falls \+= 1;/&\nself.keys[places[0] as usize \/ FRAME] |= 0x02;/' both
mutant "word before the unit's stores" 's/^            self\.lower_word\(&places\);//; s/^        for \(place, byte\) in unit\.stores \{/if let Some(places) = \&interval_timer { self.lower_word(places); }\n&/' both
mutant "word in the tables after the unit's stores" '/fn add_to_residue/,/^    }/ s/storage: self\.storage,/storage: \&after,/; s/^        set_word\(&mut unit\.record, RESIDUE, residue - RESIDUE_LIMIT\);/&\nlet mut after = self.storage.to_vec(); for \&(place, byte) in \&unit.stores { after[place as usize] = byte; }/' both
mutant "word before the interruption's areas" 's/match interrupt\(&view, &mut unit, 32, 96, 136, &fields\) \{/match self.add_to_residue(\&mut unit).and_then(|_| interrupt(\&view, \&mut unit, 32, 96, 136, \&fields)) {/' both
mutant "residue kept at the word's fault" 's/^                self\.events\.fault_at_word = true;/&\nlet residue = word(\&unit.record, RESIDUE); set_word(self.record, RESIDUE, residue);/' both
mutant "unit kept at the word's fault" 's/^                self\.events\.fault_at_word = true;/&\nfor \&(place, byte) in \&unit.stores { self.storage[place as usize] = byte; }/' both
mutant "registers kept at the word's fault" 's/^                self\.events\.fault_at_word = true;/&\nself.record[PSW..PSW + 8].copy_from_slice(\&unit.record[PSW..PSW + 8]);/' both
mutant "marks kept at the word's fault" 's/^                self\.events\.fault_at_word = true;/&\nfor \&(frame, _) in \&unit.marks { self.keys[frame] |= 0x04; }/' both

# Request 1/12: translate and the case file.
mutant "translate goes on with DAT on" '/^pub fn translate/,/^}/ s/if form\(record\) == Form::Ec && psw_bit\(record, 5\)/if false/' both
mutant "translate does not read bit 12" '/^pub fn translate/,/^}/ s/if form\(record\) == Form::Ec && psw_bit\(record, 5\)/if system_370(record) \&\& psw_bit(record, 5)/' both
mutant "translate's code 32 before refusal 8" '/^pub fn translate/,/^}/ s/^        \.or_else\(\|\| if access > 2 .*/.or_else(|| if access > 2 \&\& !(form(record) == Form::Ec \&\& psw_bit(record, 5)) { Some(8) } else { None });/' both
mutant "translate stops at a malformed PSW" '/^pub fn translate/,/^}/ s/if form\(record\) == Form::Ec && psw_bit\(record, 5\)/if form(record) == Form::Ec \&\& (psw_bit(record, 5) || psw_is_malformed(record))/' both
mutant "translate stops at PER" '/^pub fn translate/,/^}/ s/if form\(record\) == Form::Ec && psw_bit\(record, 5\)/if form(record) == Form::Ec \&\& (psw_bit(record, 5) || psw_bit(record, 1))/' both
mutant "case file with 200 bytes alone" 's/let size = if halfword\(file, 23\) == 208 \{ 208 \}/let size = if halfword(file, 23) == 208 { 200 }/' tests
mutant "case file's size by the version" 's/let size = if halfword\(file, 23\) == 208/let size = if file[25] == 2/' tests
mutant "case file's size by the low byte of the field" 's/let size = if halfword\(file, 23\) == 208/let size = if file[24] == 208/' tests
mutant "frame count of 9 taken" 's/\(1\.\.=8\)\.contains\(&frames\)/(1..=9).contains(\&frames)/' tests
mutant "frame count of 0 taken" 's/\(1\.\.=8\)\.contains\(&frames\)/(0..=8).contains(\&frames)/' tests

# Request 2/12. The host's table for a guest's entry.
suite=which_table
mutant "the guest's table told for the host walk behind it" 's/^            Err\(failure\) => Err\(failure\),/Err(Failure::Host(fault)) => Err(Failure::Host(Fault { table: *table, ..fault })),/' both
mutant "the guest's stage told with the host's entry" 's/^            Err\(failure\) => Err\(failure\),/Err(Failure::Host(fault)) => Err(Failure::Host(Fault { table: Table { entry: fault.table.entry, ..*table }, ..fault })),/' both
mutant "the guest's entry told with the host's stage" 's/^            Err\(failure\) => Err\(failure\),/Err(Failure::Host(fault)) => Err(Failure::Host(Fault { table: Table { entry: fault.table.entry.and(Some(real)), ..fault.table }, ..fault })),/' both
mutant "no stage of the host walk behind a guest's entry" 's/^            Err\(failure\) => Err\(failure\),/Err(Failure::Host(fault)) => Err(Failure::Host(Fault { table: Table::NONE, ..fault })),/' both
mutant "the guest's stage told for the host walk behind its page entry" 's/^            Err\(failure\) => Err\(failure\),/Err(Failure::Host(fault)) if walk == Walk::GuestPageEntry => Err(Failure::Host(Fault { table: Table { stage: Stage::GuestPage, ..fault.table }, ..fault })),\n&/' both
mutant "a host page told as the guest's for its segment entry" 's/^            Err\(failure\) => Err\(failure\),/Err(Failure::Host(fault)) if walk == Walk::GuestSegmentEntry \&\& fault.table.stage == Stage::HostPage => Err(Failure::Host(Fault { table: Table { stage: Stage::GuestSegment, ..fault.table }, ..fault })),\n&/' both

# Request 2/12: entries that were not read.
mutant "address of a host entry past the storage" 's/return Err\(\(ADDRESSING, \*table\)\)/return Err((ADDRESSING, Table::read(table.stage, address)))/' both
mutant "address of a guest entry past the extent" 's/Failure::Guest\(code, address, \*table\)/Failure::Guest(code, address, Table::read(table.stage, real))/' both
mutant "address of a host segment entry over the length" '/fn host_translate/,/fn host_word/ { /if segment_index >> 4/,/}/ s/, table\)/, Table::read(table.stage, (self.designation \& 0x7FFF_F000) + 4 * segment_index))/ }' both
mutant "address of a host page entry over the length" '/fn host_translate/,/fn host_word/ { /if page_index >> 4/,/}/ s/, table\)/, Table::read(table.stage, (segment_entry \& 0x7FFF_FFC0) + 4 * page_index))/ }' both
mutant "address of a guest segment entry over the length" '/fn guest_translate/,/fn access/ { /if segment_index >> 4/,/}/ s/, table\)/, Table::read(table.stage, (designation \& 0x7FFF_F000) + 4 * segment_index))/ }' both
mutant "address of a guest page entry over the length" '/fn guest_translate/,/fn access/ { /if page_index >> 4/,/}/ s/, table\)/, Table::read(table.stage, (segment_entry \& 0x7FFF_FFC0) + 4 * page_index))/ }' both
mutant "host page index over the length as segment stage" '/fn host_translate/,/fn host_word/ { /if page_index >> 4/,/}/ s/, table\)/, Table::unread(Stage::HostSegment))/ }' both
mutant "guest page index over the length as segment stage" '/fn guest_translate/,/fn access/ { /if page_index >> 4/,/}/ s/, table\)/, Table::unread(Stage::GuestSegment))/ }' both
mutant "host page index over the length with the segment's entry" '/fn host_translate/,/fn host_word/ { /if page_index >> 4/,/}/ s/, table\)/, Table::read(table.stage, (self.designation \& 0x7FFF_F000) + 4 * segment_index))/ }' both
mutant "guest page index over the length with the segment's entry" '/fn guest_translate/,/fn access/ { /if page_index >> 4/,/}/ s/, table\)/, Table::read(table.stage, segment_at))/ }' both
mutant "host page entry past the storage as segment stage" 's/return Err\(\(ADDRESSING, \*table\)\)/return Err((ADDRESSING, Table::unread(Stage::HostSegment)))/' both
mutant "guest page entry past the extent as segment stage" 's/Failure::Guest\(code, address, \*table\)/Failure::Guest(code, address, Table::unread(Stage::GuestSegment))/' both
mutant "host entry past the storage as none" 's/return Err\(\(ADDRESSING, \*table\)\)/return Err((ADDRESSING, Table::NONE))/' both
mutant "guest entry past the extent as a final address" 's/Failure::Guest\(code, address, \*table\)/Failure::Guest(code, address, Table::NONE)/' both

# Request 2/12: entries that were read.
mutant "no address of a host segment entry" '/fn host_translate/,/fn host_word/ { /if bit\(segment_entry/,/}/ s/, table\)/, Table::unread(table.stage))/ }' both
mutant "no address of an invalid host page entry" '/fn host_translate/,/fn host_word/ { /if bit\(page_entry, 21/,/}/ s/, table\)/, Table::unread(table.stage))/ }' both
mutant "no address of a malformed host page entry" '/fn host_translate/,/fn host_word/ { /if bit\(page_entry, 0/,/}/ s/, table\)/, Table::unread(table.stage))/ }' both
mutant "no address of a malformed guest segment entry" '/fn guest_translate/,/fn access/ { /if bit\(segment_entry, 0/,/}/ s/, table\)/, Table::unread(table.stage))/ }' both
mutant "no address of an invalid guest page entry" '/fn guest_translate/,/fn access/ { /if bit\(page_entry, 21/,/}/ s/, table\)/, Table::unread(table.stage))/ }' both
mutant "a malformed host segment entry as page stage" '/fn host_translate/,/fn host_word/ { /if bit\(segment_entry, 0/,/}/ s/, table\)/, Table { stage: Stage::HostPage, ..table })/ }' both
mutant "an invalid guest segment entry as page stage" '/fn guest_translate/,/fn access/ { /if bit\(segment_entry, 26/,/}/ s/, table\)/, Table { stage: Stage::GuestPage, ..table })/ }' both
mutant "the segment's entry for a bad host page" 's/^        let page_entry = self\.host_word\(.*/&\ntable.entry = Some((self.designation \& 0x7FFF_F000) + 4 * segment_index);/' both
mutant "the segment's entry for a bad guest page" 's/^        let page_entry = self\.guest_word\(.*/&\ntable.entry = Some(segment_at);/' both
mutant "a bad host page as segment stage" 's/^        let page_entry = self\.host_word\(.*/&\ntable.stage = Stage::HostSegment;/' both
mutant "a bad guest page as host page" 's/^        let page_entry = self\.guest_word\(.*/&\ntable.stage = Stage::HostPage;/' both
mutant "absolute address of a guest entry" 's/table\.entry = Some\(real\)/table.entry = Some(self.prefixed(real))/' both
mutant "host virtual address of a guest entry" 's/table\.entry = Some\(real\)/table.entry = Some(origin_bytes(self.record) + self.prefixed(real))/' both
mutant "host absolute address of a guest entry" 's/table\.entry = Some\(real\)/table.entry = Some(absolute)/' both
mutant "prefixed address of a host entry" 's/table\.entry = Some\(address\)/table.entry = Some(self.prefixed(address))/' both
mutant "the next host entry" 's/table\.entry = Some\(address\)/table.entry = Some(address + 4)/' both
mutant "the group of a guest entry" 's/table\.entry = Some\(real\)/table.entry = Some(real \& 0x7FFF_FFC0)/' both
mutant "a frame beyond the storage as none" '/fn host_translate/,/fn host_word/ s/return Err\(\(ADDRESSING, table\)\)/return Err((ADDRESSING, Table::NONE))/' both
mutant "a frame beyond the storage without its entry" '/fn host_translate/,/fn host_word/ s/return Err\(\(ADDRESSING, table\)\)/return Err((ADDRESSING, Table::unread(table.stage)))/' both
mutant "stages numbered otherwise" '/^pub enum Stage/,/^}/ { s/GuestPage/Other/; s/HostSegment/GuestPage/; s/Other/HostSegment/ }' both

# Request 2/12: none and zero.
mutant "host page protection with a stage" 's/code: PROTECTION, address, table: Table::NONE/code: PROTECTION, address, table: Table::unread(Stage::HostPage)/' both
mutant "low-address protection with a stage" '/if access == Access::Store && logical <= 511/,/}/ s/Table::NONE/Table::unread(Stage::GuestSegment)/' both
mutant "guest page protection with a stage" '/if access == Access::Store && guest_protected/,/}/ s/Table::NONE/Table::unread(Stage::GuestPage)/' both
mutant "key protection with a stage" '/if access_key != 0/,/}/ s/Table::NONE/Table::unread(Stage::HostPage)/' both
mutant "bad CR0 with a stage" '/>> 19 & 0x1F != 0b10110/,/}/ s/Table::NONE/Table::unread(Stage::GuestSegment)/' both
mutant "a final address past the extent with a stage" '/fn real_to_host/,/^    }/ s/Table::NONE/Table::unread(Stage::GuestPage)/' both
mutant "a final address past the extent as the host's" '/fn real_to_host/,/^    }/ s/Table::NONE/Table::unread(Stage::HostSegment)/' both

# Request 2/12: the two operations.
mutant "run's host fault without its stage" '/fn host_fault/,/^    }/ s/fault\.answer\(\)/Answer::HostFault(fault.code, fault.address, Table::NONE)/' both
mutant "run's host fault without its entry" '/fn host_fault/,/^    }/ s/fault\.answer\(\)/Answer::HostFault(fault.code, fault.address, Table::unread(fault.table.stage))/' both
mutant "an area's host fault without its stage" '/fn host_fault/,/^    }/ s/fault\.answer\(\)/Answer::HostFault(fault.code, fault.address, if fault.walk == Walk::Area { Table::NONE } else { fault.table })/' both
mutant "the word's host fault without its stage" '/fn host_fault/,/^    }/ s/fault\.answer\(\)/Answer::HostFault(fault.code, fault.address, if self.events.fault_at_word { Table::NONE } else { fault.table })/' both
mutant "the word's host fault without its entry" '/fn host_fault/,/^    }/ s/fault\.answer\(\)/Answer::HostFault(fault.code, fault.address, if self.events.fault_at_word { Table::unread(fault.table.stage) } else { fault.table })/' both
mutant "translate's host fault without its stage" '/^pub fn translate_and_walk/,/^}/ s/fault\.answer\(\)/Answer::HostFault(fault.code, fault.address, Table::NONE)/' both
mutant "translate's exception without its stage" 's/Answer::ProgramException\(code, table\), None/Answer::ProgramException(code, Table { stage: Stage::None, ..table }), None/' both
mutant "translate's exception without its entry" 's/Answer::ProgramException\(code, table\), None/Answer::ProgramException(code, Table::unread(table.stage)), None/' both

# Requests 3/12 and 4/12: in reach and valid, and the refusals that all calls have. The argument begins the names.
mutants_in_common() {
    mutant "$1: segment table's length ignored" 's/segment >> 4 > self\.designation & 0x7F/false/' both
    mutant "$1: segment table's length off by one" 's/segment >> 4 > self\.designation/segment >> 4 >= self.designation/' both
    mutant "$1: designation bit 24 in the length" 's/self\.designation & 0x7F\b/self.designation \& 0xFF/' compare
    mutant "$1: designation bit 0 in the table's address" 's/self\.designation & 0x7FFF_F000/self.designation \& 0xFFFF_F000/' both
    mutant "$1: last segment entry of the storage out of reach" '/fn segment_entry\(/,/^    }/ s/\(at < self\.storage\.len\(\)\)/(at + 4 < self.storage.len())/' both
    mutant "$1: last page entry of the storage out of reach" '/fn host_page_entry\(/,/^    }/ s/\(at < self\.storage\.len\(\)\)/(at + 4 < self.storage.len())/' both
    mutant "$1: invalid segment entry taken" 's/bit\(segment_entry, 26\) \|\| bit\(segment_entry, 0\)/bit(segment_entry, 0)/' both
    mutant "$1: malformed segment entry taken" 's/bit\(segment_entry, 26\) \|\| bit\(segment_entry, 0\)/bit(segment_entry, 26)/' both
    mutant "$1: segment bit 27 tested" 's/bit\(segment_entry, 26\) \|\| bit\(segment_entry, 0\)/bit(segment_entry, 26) || bit(segment_entry, 27) || bit(segment_entry, 0)/' both
    mutant "$1: page table's length ignored" 's/index >> 4 > segment_entry & 0xF/false/' both
    mutant "$1: page table's length off by one" 's/index >> 4 > segment_entry/index >> 4 >= segment_entry/' both
    mutant "$1: page tables at multiples of 1,024" 's/segment_entry & 0x7FFF_FFC0/segment_entry \& 0x7FFF_FC00/' both
    mutant "$1: page bit 0 not tested" 's/let well_formed = !bit\(entry, 0\) && /let well_formed = /' both
    mutant "$1: page bit 20 not tested" 's/!bit\(entry, 20\) && //' both
    mutant "$1: page bit 23 not tested" 's/ && !bit\(entry, 23\)//' both
    mutant "$1: page bit 24 tested" 's/!bit\(entry, 23\)/!bit(entry, 23) \&\& !bit(entry, 24)/' both
    mutant "$1: page bit 21 not tested" 's/\(well_formed && !bit\(entry, 21\)\)/(well_formed)/' both
    mutant "$1: protected page not valid" 's/\(well_formed && !bit\(entry, 21\)\)/(well_formed \&\& !bit(entry, 21) \&\& !bit(entry, 22))/' both
    mutant "$1: frame past the storage not valid" 's/\(well_formed && !bit\(entry, 21\)\)/(well_formed \&\& !bit(entry, 21) \&\& ((entry \& 0x7FFF_F000) as usize) < self.storage.len())/' both
    mutant "$1: origin left out" 's/model::origin_bytes\(self\.record\) \/ FRAME as u32 \+ page/page/' both
    mutant "$1: pages prefixed" '/fn page_entry\(/,/^    }/ s/self\.host_page\(page\)/self.host_page(if page == 0 { model::prefix(self.record) >> 12 } else if page == model::prefix(self.record) >> 12 { 0 } else { page })/' both
    mutant "$1: reserved bytes before the storage" '/^fn turned_away/,/^}/ { s/\.or_else\(\|\| model::refuse_storage\(storage\.len\(\), keys\.len\(\)\)\)/.or_else(|| model::refuse_reserved(record)).or_else(|| model::refuse_storage(storage.len(), keys.len()))/ }' both
    mutant "$1: reserved bytes not tested" '/^fn turned_away/,/^}/ s/\.or_else\(\|\| model::refuse_reserved\(record\)\)//' both
    mutant "$1: keys not tested" '/^fn turned_away/,/^}/ s/refuse_storage\(storage\.len\(\), keys\.len\(\)\)/refuse_storage(storage.len(), if keys.len() == usize::MAX { 0 } else { storage.len() \/ FRAME })/' both
    mutant "$1: entry failure before the reserved bytes" '/^fn turned_away/,/^}/ s/^    if let Some\(number\) = refusal \{/    if matches!(refusal, Some(7)) \&\& !model::entry_is_good(record) { return Some(Answer::EntryFailed); }\n&/' both
    mutant "$1: entry failure as refusal 10" 's/then_some\(Answer::EntryFailed\)/then_some(Answer::Refused(10))/' both
}

# Request 3/12.
module=desk
comparison=desk_calls
suite=desk
mutants_in_common desk
mutant "desk: frame number of twelve bits" 's/then_some\(\(entry & 0x7FFF_F000\) >> 12\)/then_some(entry >> 12 \& 0xFFF)/' both

# Request 3/12: describing entries and guest frames.
mutant "desk: a segment past the extent touched" 's/self\.host_page\(self\.pages\(\) - 1\) >> 8/self.host_page(self.pages()) >> 8/' compare
mutant "desk: last segment not touched" 's/\.\.=self\.host_page\(self\.pages\(\) - 1\) >> 8/..=self.host_page(self.pages() - 1).saturating_sub(256).max(self.host_page(0)) >> 8/' both
mutant "desk: segment entries no entries" 's/self\.segment_entries\(\)\.into_iter\(\)\.chain\(pages\)/pages/' both
mutant "desk: invalid segment entries no entries" '/fn segment_entries\(/,/^    }/ s/\.collect\(\)/.filter(|\&at| word(self.storage, at) \& 0x8000_0020 == 0).collect()/' both
mutant "desk: page entries no entries" 's/self\.segment_entries\(\)\.into_iter\(\)\.chain\(pages\)/self.segment_entries().into_iter().chain(pages.filter(|_| false))/' both
mutant "desk: entries of pages not valid no entries" '/pub fn entries\(/,/^    }/ s/\(0\.\.self\.pages\(\)\)/(0..self.pages()).filter(|\&page| self.is_valid(page))/' both
mutant "desk: entries of protected pages no entries" '/pub fn entries\(/,/^    }/ s/\.filter_map\(\|page\| self\.page_entry\(page\)\)/.filter_map(|page| self.page_entry(page)).filter(|\&at| !bit(word(self.storage, at), 22))/' compare
mutant "desk: frames of protected pages no guest frames" '/pub fn guest_frames\(/,/^    }/ s/\(0\.\.self\.pages\(\)\)/(0..self.pages()).filter(|\&page| self.page_entry(page).is_some_and(|at| !bit(word(self.storage, at), 22)))/' both
mutant "desk: first page's frame no guest frame" '/pub fn guest_frames\(/,/^    }/ s/\(0\.\.self\.pages\(\)\)/(1..self.pages())/' compare
mutant "desk: frames of pages past the extent guest frames" '/pub fn guest_frames\(/,/^    }/ s/\(0\.\.self\.pages\(\)\)/(0..self.pages() + 1)/' both

# Request 3/12: refusal 14.
mutant "desk: tables before the call" 's/entry_in_guest_frame\(Tables \{ storage: &changed, \.\.before \}\)/entry_in_guest_frame(before)/' both
mutant "desk: tables before and after the call" 's/entry_in_guest_frame\(Tables \{ storage: &changed, \.\.before \}\)/entry_in_guest_frame(before) || entry_in_guest_frame(Tables { storage: \&changed, ..before })/' both
mutant "desk: what the call brings alone" 's/entry_in_guest_frame\(Tables \{ storage: &changed, \.\.before \}\)/!entry_in_guest_frame(before) \&\& entry_in_guest_frame(Tables { storage: \&changed, ..before })/' both
mutant "desk: entry in a guest frame taken" 's/self\.entry_in_guest_frame \|\| //' both
mutant "desk: second page taken" 's/self\.second_page \|\| //' both
mutant "desk: segment entry taken" 's/ \|\| self\.segment_entry$//' both
mutant "desk: second page lower alone" 's/other != page && /other < page \&\& /' both
mutant "desk: second page higher alone" 's/other != page && /other > page \&\& /' both
mutant "desk: second page valid alone" 's/other != page && /other != page \&\& before.is_valid(other) \&\& /' both
mutant "desk: second page in another segment's half alone" 's/other != page && /other != page \&\& other \& 0x80 != page \& 0x80 \&\& /' compare
mutant "desk: second page outside the extent" 's/^    \(0\.\.before\.pages\(\)\)\.any\(.*/    let (first, last) = (before.host_page(0) >> 8 << 8, before.host_page(before.pages() - 1) | 0xFF);\n    (first..=last).any(|other| other != before.host_page(page) \&\& before.host_page_entry(other) == Some(at))/' both
mutant "desk: second page out of reach" 's/^    \(0\.\.before\.pages\(\)\)\.any\(.*/    let index = before.host_page(page) \& 0xFF;\n    let at = at - 4 * index as usize;\n    let table = |segment: u32| before.segment_entry(segment).map(|entry| (word(before.storage, entry) \& 0x7FFF_FFC0) as usize);\n    let within = |segment: u32| (before.host_page(0)..=before.host_page(before.pages() - 1)).contains(\&(segment << 8 | index));\n    before.segments().filter(|\&segment| segment != before.host_page(page) >> 8 \&\& within(segment)).any(|segment| table(segment) == Some(at))/' both
mutant "desk: any segment entry" 's/before\.segment_entries\(\)\.contains\(&at\)/(0..2048).any(|segment| before.segment_entry(segment) == Some(at))/' both
mutant "desk: valid segment entry alone" 's/before\.segment_entries\(\)\.contains\(&at\)/before.segment_entries().contains(\&at) \&\& word(before.storage, at) \& 0x8000_0020 == 0/' both
mutant "desk: invalid segment entry alone" 's/before\.segment_entries\(\)\.contains\(&at\)/before.segment_entries().contains(\&at) \&\& word(before.storage, at) \& 0x8000_0020 != 0/' both
mutant "desk: 14 not asked of protect" 's/if conflict\.any\(\) \{/if conflict.any() \&\& !(entry \& 0x600 == 0x200) {/' both
mutant "desk: 14 not asked of remove" 's/if conflict\.any\(\) \{/if conflict.any() \&\& entry \& 0x400 == 0 {/' both
mutant "desk: 14 asked of the list" '/^pub fn list_pages/,/^}/ s/^    for page in/    if entry_in_guest_frame(tables) { return Answer::Refused(14); }\n&/' both

# Request 3/12: the order of the refusals.
mutant "desk: the page at the extent taken" 's/if page >= tables\.pages\(\)/if page > tables.pages()/' compare
mutant "desk: 12 before 10" '/^fn set_bits/,/^}/ s/Err\(answer\) => return answer\.into\(\)/Err(_) => return Answer::Refused(12).into()/' both
mutant "desk: 13 before 11" '/^pub fn add_page/,/^}/ s/if before\.is_valid\(page\) \{/if before.is_valid(page) \&\& (frame as usize) < storage.len() \/ FRAME {/' both
mutant "desk: 13 before 10" '/^pub fn add_page/,/^}/ s/if let Err\(answer\) = chosen_entry\(before, page\) \{/if frame as usize >= storage.len() \/ FRAME { return Answer::Refused(13).into(); }\n&/' both
mutant "desk: 11 for an entry with bit 21 zero" '/^pub fn add_page/,/^}/ s/if before\.is_valid\(page\)/if before.page_entry(page).is_some_and(|at| !bit(word(before.storage, at), 21))/' both
mutant "desk: frame at the end of the storage taken" 's/if frame as usize >= storage/if frame as usize > storage/' both
mutant "desk: frame number cut to 19 bits" '/^pub fn add_page/,/^}/ s/if frame as usize >= storage/if frame as usize \& 0x7_FFFF >= storage/' both
mutant "desk: frame number cut to 20 bits" '/^pub fn add_page/,/^}/ s/if frame as usize >= storage/if frame as usize \& 0xF_FFFF >= storage/' both
mutant "desk: frame of another page refused" '/^pub fn add_page/,/^}/ s/if frame as usize >= storage\.len\(\) \/ FRAME/if frame as usize >= storage.len() \/ FRAME || before.guest_frames().contains(\&(frame as usize))/' both
mutant "desk: a word too few taken" 's/if words\.len\(\) < tables\.pages\(\) as usize/if words.len() + 1 < tables.pages() as usize/; s/words\[page as usize\] = (.*);/if let Some(word) = words.get_mut(page as usize) { *word = \1; }/' both
mutant "desk: a word more asked for" 's/if words\.len\(\) < tables/if words.len() <= tables/' both

# Request 3/12: what is written.
mutant "desk: add keeps the ignored bits" '/^pub fn add_page/,/^}/ s/page, frame << 12\)/page, frame << 12 | word(storage, Tables { record, storage, designation }.page_entry(page).unwrap()) \& 0xFF)/' both
mutant "desk: add keeps the protection" '/^pub fn add_page/,/^}/ s/page, frame << 12\)/page, frame << 12 | word(storage, Tables { record, storage, designation }.page_entry(page).unwrap()) \& 0x200)/' both
mutant "desk: remove clears the ignored bits" 's/entry \| bits\)/if bits == 0x400 { entry \& !0xFF | bits } else { entry | bits })/' both
mutant "desk: remove takes the protection away" 's/entry \| bits\)/if bits == 0x400 { entry \& !0x200 | bits } else { entry | bits })/' both
mutant "desk: remove clears the entry" 's/entry \| bits\)/if bits == 0x400 { bits } else { entry | bits })/' both
mutant "desk: protect clears the ignored bits" 's/entry \| bits\)/if bits == 0x200 { entry \& !0xFF | bits } else { entry | bits })/' both
mutant "desk: protect takes the protection away" 's/entry \| bits\)/if bits == 0x200 { entry ^ bits } else { entry | bits })/' both
mutant "desk: remove sets bit 20" 's/designation, page, 0x400\)/designation, page, 0x800)/' both
mutant "desk: protect sets bit 23" 's/designation, page, 0x200\)/designation, page, 0x100)/' both
mutant "desk: remove protects too" 's/designation, page, 0x400\)/designation, page, 0x600)/' both

# Request 3/12: the number and the list.
mutant "desk: number stops at FFFFFFFF hex" 's/number\.wrapping_add\(1\)/number.saturating_add(1)/' both
mutant "desk: number stops at 0" 's/number\.wrapping_sub\(1\)/number.saturating_sub(1)/' both
mutant "desk: add leaves the number" 's/number\.wrapping_add\(1\)/number.wrapping_add(0)/' both
mutant "desk: number counted in the tables" 's/\*number = number\.wrapping_add\(1\)/*number = Tables { record, storage, designation }.valid_pages()/' both
mutant "desk: a refused add counts" '/^pub fn add_page/,/^}/ s/if outcome\.answer == Answer::Done\(0\)/if outcome.answer == Answer::Done(0) || outcome.conflict.any()/' both
mutant "desk: a refused remove counts" '/^pub fn remove_page/,/^}/ s/if outcome\.answer == Answer::Done\(0\)/if outcome.answer != Answer::EntryFailed/' both
mutant "desk: zero where not valid" 's/unwrap_or\(NOT_VALID\)/unwrap_or(0)/' both
mutant "desk: words where not valid stay" 's/words\[page as usize\] = tables\.frame_of\(page\)\.unwrap_or\(NOT_VALID\);/if let Some(frame) = tables.frame_of(page) { words[page as usize] = frame; }/' both
mutant "desk: words past the extent filled" '/^pub fn list_pages/,/^}/ s/^    for page in/    words.fill(NOT_VALID);\n&/' both
mutant "desk: the frame's address listed" 's/tables\.frame_of\(page\)\.unwrap_or/tables.frame_of(page).map(|frame| frame << 12).unwrap_or/' both
mutant "desk: frames past the storage not listed" 's/tables\.frame_of\(page\)\.unwrap_or/tables.frame_of(page).filter(|\&frame| (frame as usize) < storage.len() \/ FRAME).unwrap_or/' both
mutant "desk: the list answers no number" 's/Answer::Done\(tables\.valid_pages\(\)\)/Answer::Done(0)/' both
mutant "desk: the list answers all pages" 's/Answer::Done\(tables\.valid_pages\(\)\)/Answer::Done(tables.pages())/' both

# Request 4/12: which pages are asked about, and which of them is answered.
comparison=first_unbacked
suite=first_unbacked
mutants_in_common unbacked
mutant "unbacked: B included" '/^pub fn survey/,/^}/ s/\(from\.\.to\)/(from..=to)/' both
mutant "unbacked: A excluded" '/^pub fn survey/,/^}/ s/\(from\.\.to\)/(from + 1..to)/' both
mutant "unbacked: A ignored" '/^pub fn survey/,/^}/ s/\(from\.\.to\)/(0..to)/' both
mutant "unbacked: B ignored" '/^pub fn survey/,/^}/ s/\(from\.\.to\)/(from..tables.pages())/' both
mutant "unbacked: the page before B ignored" '/^pub fn survey/,/^}/ s/\(from\.\.to\)/(from..to.saturating_sub(1))/' both
mutant "unbacked: one segment asked about" '/^pub fn survey/,/^}/ s/\(from\.\.to\)/(from..to.min((tables.host_page(from) | 0xFF) + 1 - tables.host_page(0)))/' both
mutant "unbacked: A back to its segment" '/^pub fn survey/,/^}/ s/\(from\.\.to\)/((tables.host_page(from) \& !0xFF).max(tables.host_page(0)) - tables.host_page(0)..if from < to { to } else { 0 })/' both
mutant "unbacked: A on to a segment" '/^pub fn survey/,/^}/ s/\(from\.\.to\)/(if tables.page_entry(from).is_some() { from } else { (tables.host_page(from) | 0xFF) + 1 - tables.host_page(0) }..to)/' both
mutant "unbacked: the highest answered" '/^pub fn first_unbacked/,/^}/ s/\.first\(\)/.last()/' both
mutant "unbacked: the page after answered" '/^pub fn first_unbacked/,/^}/ s/Unbacked::Page\(page\)/Unbacked::Page(page + 1)/' both
mutant "unbacked: counted from A" '/^pub fn first_unbacked/,/^}/ s/Unbacked::Page\(page\)/Unbacked::Page(page - from)/' both
mutant "unbacked: host page answered" '/^pub fn first_unbacked/,/^}/ s/Unbacked::Page\(page\)/Unbacked::Page(tables.host_page(page))/' both
mutant "unbacked: address answered" '/^pub fn first_unbacked/,/^}/ s/Unbacked::Page\(page\)/Unbacked::Page(page << 12)/' both
mutant "unbacked: first page of the segment answered" '/^pub fn first_unbacked/,/^}/ s/Unbacked::Page\(page\)/Unbacked::Page(if tables.page_entry(page).is_some() { page } else { (tables.host_page(page) \& !0xFF).max(tables.host_page(0)) - tables.host_page(0) })/' both
mutant "unbacked: B answered for none" '/^pub fn first_unbacked/,/^}/ s/None => Unbacked::None/None => Unbacked::Page(to)/' both
mutant "unbacked: page 0 answered as none" '/^pub fn first_unbacked/,/^}/ s/Some\(&page\) => /Some(0) => Unbacked::None,\n        &/' both

# Request 4/12: "no valid host entry".
mutant "unbacked: pages out of reach passed over" '/^pub fn survey/,/^}/ s/!tables\.is_valid\(page\)/tables.page_entry(page).is_some() \&\& !tables.is_valid(page)/' both
mutant "unbacked: invalid segments passed over" '/^pub fn survey/,/^}/ s/!tables\.is_valid\(page\)/!tables.is_valid(page) \&\& tables.segment_entry(tables.host_page(page) >> 8).is_none_or(|at| !bit(word(tables.storage, at), 26))/' both
mutant "unbacked: malformed segments passed over" '/^pub fn survey/,/^}/ s/!tables\.is_valid\(page\)/!tables.is_valid(page) \&\& tables.segment_entry(tables.host_page(page) >> 8).is_none_or(|at| !bit(word(tables.storage, at), 0))/' both
mutant "unbacked: segments out of reach passed over" '/^pub fn survey/,/^}/ s/!tables\.is_valid\(page\)/!tables.is_valid(page) \&\& tables.segment_entry(tables.host_page(page) >> 8).is_some()/' both
mutant "unbacked: page after an invalid segment answered" '/^pub fn survey/,/^}/ s/!tables\.is_valid\(page\)/!tables.is_valid(page) \&\& (tables.page_entry(page).is_some() || page > 0 \&\& tables.page_entry(page - 1).is_none())/' both
mutant "unbacked: pages past the length passed over" '/^pub fn survey/,/^}/ s/!tables\.is_valid\(page\)/!tables.is_valid(page) \&\& tables.segment_entry(tables.host_page(page) >> 8).is_none_or(|at| word(tables.storage, at) \& 0x8000_0020 != 0 || tables.host_page(page) >> 4 \& 15 <= word(tables.storage, at) \& 15)/' both
mutant "unbacked: a page out of reach ends the survey" '/^pub fn survey/,/^}/ s/\(from\.\.to\)/(from..to).take_while(|\&page| tables.page_entry(page).is_some())/' both
mutant "unbacked: malformed taken as valid" '/^pub fn survey/,/^}/ s/!tables\.is_valid\(page\)/tables.page_entry(page).is_none_or(|at| bit(word(tables.storage, at), 21))/' both
mutant "unbacked: malformed and invalid taken as valid" '/^pub fn survey/,/^}/ s/!tables\.is_valid\(page\)/!tables.is_valid(page) \&\& tables.page_entry(page).is_none_or(|at| word(tables.storage, at) \& 0x8000_0D00 <= 0x800)/' both
mutant "unbacked: frame past the storage not backed" '/^pub fn survey/,/^}/ s/!tables\.is_valid\(page\)/tables.frame_of(page).is_none_or(|frame| frame as usize >= tables.storage.len() \/ FRAME)/' both
mutant "unbacked: protected page not backed" '/^pub fn survey/,/^}/ s/!tables\.is_valid\(page\)/(!tables.is_valid(page) || bit(word(tables.storage, tables.page_entry(page).unwrap()), 22))/' both
mutant "unbacked: frame 0 not backed" '/^pub fn survey/,/^}/ s/!tables\.is_valid\(page\)/tables.frame_of(page).is_none_or(|frame| frame == 0)/' both
mutant "unbacked: entry of two pages not backed" '/^pub fn survey/,/^}/ s/!tables\.is_valid\(page\)/(!tables.is_valid(page) || (from..page).any(|other| tables.page_entry(other) == tables.page_entry(page)))/' both

# Request 4/12: the refusals and their order.
mutant "unbacked: 16 before the entry failure" '/^pub fn first_unbacked/,/^}/ s/^    match turned_away\(record, storage, keys\) \{/    if turned_away(record, storage, keys) == Some(Answer::EntryFailed) \&\& (from > to || to > 16 * model::halfword(record, 14)) { return Unbacked::Refused(16); }\n&/' both
mutant "unbacked: 16 before 7" '/^pub fn first_unbacked/,/^}/ s/^    match turned_away\(record, storage, keys\) \{/    if turned_away(record, storage, keys) == Some(Answer::Refused(7)) \&\& (from > to || to > 16 * model::halfword(record, 14)) { return Unbacked::Refused(16); }\n&/' both
mutant "unbacked: 16 before 4" '/^pub fn first_unbacked/,/^}/ s/^    match turned_away\(record, storage, keys\) \{/    if turned_away(record, storage, keys) == Some(Answer::Refused(4)) \&\& (from > to || to > 16 * model::halfword(record, 14)) { return Unbacked::Refused(16); }\n&/' both
mutant "unbacked: A above B before the entry failure" '/^pub fn first_unbacked/,/^}/ s/^    match turned_away\(record, storage, keys\) \{/    if turned_away(record, storage, keys) == Some(Answer::EntryFailed) \&\& from > to { return Unbacked::Refused(16); }\n&/' both
mutant "unbacked: A equal to B before the entry failure" '/^pub fn first_unbacked/,/^}/ s/^    match turned_away\(record, storage, keys\) \{/    if turned_away(record, storage, keys) == Some(Answer::EntryFailed) \&\& from == to { return Unbacked::None; }\n&/' both
mutant "unbacked: entry failure as none" '/^pub fn first_unbacked/,/^}/ s/Some\(_\) => return Unbacked::EntryFailed/Some(_) => return Unbacked::None/' both
mutant "unbacked: entry failure as refusal 16" '/^pub fn first_unbacked/,/^}/ s/Some\(_\) => return Unbacked::EntryFailed/Some(_) => return Unbacked::Refused(16)/' both
mutant "unbacked: A above B as none" '/^pub fn first_unbacked/,/^}/ s/from > to \|\| //' both
mutant "unbacked: A above B by one as none" '/^pub fn first_unbacked/,/^}/ s/from > to \|\| /from > to.saturating_add(1) || /' both
mutant "unbacked: A equal to B refused" '/^pub fn first_unbacked/,/^}/ s/from > to \|\| /from >= to || /' both
mutant "unbacked: A equal to B refused at the end" '/^pub fn first_unbacked/,/^}/ s/from > to \|\| /from > to || from >= tables.pages() || /' both
mutant "unbacked: A equal to B past the extent as none" '/^pub fn first_unbacked/,/^}/ s/\|\| to > tables\.pages\(\)/|| from < to \&\& to > tables.pages()/' both
mutant "unbacked: A and B compared as signed" '/^pub fn first_unbacked/,/^}/ s/from > to \|\| /from as i32 > to as i32 || /' both
mutant "unbacked: A and B cut to 20 bits" '/^pub fn first_unbacked/,/^}/ s/^    let tables = /    let (from, to) = (from \& 0xF_FFFF, to \& 0xF_FFFF);\n&/' both
mutant "unbacked: B at the end refused" '/^pub fn first_unbacked/,/^}/ s/to > tables\.pages\(\)/to >= tables.pages()/' both
mutant "unbacked: B one past the extent taken" '/^pub fn first_unbacked/,/^}/ s/to > tables\.pages\(\)/to > tables.pages() + 1/' both
mutant "unbacked: B cut to the extent" '/^pub fn first_unbacked/,/^}/ s/ \|\| to > tables\.pages\(\)//; /^pub fn first_unbacked/,/^}/ s/survey\(tables, from, to\)/survey(tables, from, to.min(tables.pages()))/' both
mutant "unbacked: B past the extent refused where none is found" '/^pub fn first_unbacked/,/^}/ s/\|\| to > tables\.pages\(\)/|| to > tables.pages() \&\& survey(tables, from, tables.pages()).is_empty()/' both
mutant "unbacked: 16 where no page is in reach" '/^pub fn first_unbacked/,/^}/ s/from > to \|\| /from > to || from < to \&\& tables.segment_entry(tables.host_page(from) >> 8).is_none() || /' both
mutant "unbacked: 14 asked" '/^pub fn first_unbacked/,/^}/ s/^    match survey/    if entry_in_guest_frame(tables) {\n        return Unbacked::Refused(14);\n    }\n&/' both

# Request 5/12: the time that is refused, and where.
module=model
comparison=store_clock
suite=store_clock
mutant "clock: time 0 taken" 's/time == 0 \|\| //' both
mutant "clock: time 0 taken with budget 0" 's/time == 0 \|\| /time == 0 \&\& budget > 0 || /' both
mutant "clock: time 0 taken with budget 1" 's/time == 0 \|\| /time == 0 \&\& budget != 1 || /' both
mutant "clock: time 0 taken with the greatest budget" 's/time == 0 \|\| /time == 0 \&\& budget != 65_535 || /' both
mutant "clock: time 0 taken in 370-XA mode" 's/\.or_else\(\|\| refuse_numbers\(budget, time\)\)/.or_else(|| refuse_numbers(budget, time).filter(|_| budget > 65_535 || time > 0 || system_370(record)))/' both
mutant "clock: time 0 taken in System/370 mode" 's/\.or_else\(\|\| refuse_numbers\(budget, time\)\)/.or_else(|| refuse_numbers(budget, time).filter(|_| budget > 65_535 || time > 0 || !system_370(record)))/' both
mutant "clock: time 0 taken in the record of 208 bytes" 's/\.or_else\(\|\| refuse_numbers\(budget, time\)\)/.or_else(|| refuse_numbers(budget, time).filter(|_| budget > 65_535 || time > 0 || record.len() == 200))/' both
mutant "clock: time 0 taken with a stop request" 's/\.or_else\(\|\| refuse_numbers\(budget, time\)\)/.or_else(|| refuse_numbers(budget, time).filter(|_| budget > 65_535 || time > 0 || record[INTERVENTION] \& 0x04 == 0))/' both
mutant "clock: time 0 taken as 1" 's/time == 0 \|\| //; /^pub fn run\(/,/^}/ s/clock, time, units: 0/clock, time: time.max(1), units: 0/' both
mutant "clock: time 1 refused" 's/time == 0 \|\| /time <= 1 || /' both
mutant "clock: greatest time refused" 's/time > 1_048_576/time >= 1_048_576/' both
mutant "clock: time one past the greatest taken" 's/time > 1_048_576/time > 1_048_577/' both
mutant "clock: time compared as signed" 's/time > 1_048_576/time as i32 > 1_048_576/' both
mutant "clock: time 0 refused as 5" '/^fn refuse_numbers/,/^}/ s/if budget > 65_535/if budget > 65_535 || time == 0/' both
mutant "clock: time 0 refused as 7" '/^fn refuse_numbers/,/^}/ s/return Some\(6\)/return Some(if time == 0 { 7 } else { 6 })/' both
mutant "clock: time 0 before 1" '/^pub fn refuse_run/,/^}/ s/^    refuse_record\(record\)$/    (time == 0).then_some(6).or_else(|| refuse_record(record))/' both
mutant "clock: time 0 before 2" '/^pub fn refuse_run/,/^}/ s/^    refuse_record\(record\)$/&.map(|number| if number == 2 \&\& time == 0 { 6 } else { number })/' both
mutant "clock: time 0 before 3" '/^pub fn refuse_run/,/^}/ s/refuse_storage\(storage_len, keys_len\)/&.map(|number| if number == 3 \&\& time == 0 { 6 } else { number })/' both
mutant "clock: time 0 before 4" '/^pub fn refuse_run/,/^}/ s/refuse_storage\(storage_len, keys_len\)/&.map(|number| if number == 4 \&\& time == 0 { 6 } else { number })/' both
mutant "clock: time 0 before 5" '/^fn refuse_numbers/,/^}/ s/^    if budget > 65_535/    if time == 0 {\n        return Some(6);\n    }\n&/' both
mutant "clock: time 0 after 7" 's/time == 0 \|\| //; /^pub fn refuse_run/,/^}/ s/^        \.or_else\(\|\| refuse_reserved\(record\)\)/&.or_else(|| (time == 0).then_some(6))/' both
mutant "clock: time 0 after the entry failure" 's/time == 0 \|\| //; /^pub fn run\(/,/^}/ s/^    record\[RESULT_CODE\.\.66\]/    if time == 0 \&\& entry_is_good(record) {\n        return Run { answer: Answer::Refused(6), units: 0, events };\n    }\n&/' both
mutant "clock: time 0 clears the results" '/^pub fn run\(/,/^}/ s/^    if let Some\(number\) = refuse_run/    if time == 0 \&\& record.len() >= 200 {\n        record[RESULT_CODE..66].fill(0);\n    }\n&/' both

# Request 5/12: the readings. adds_no_time SORT-OF-UNIT CONDITION [STATEMENT-BEFORE-THE-UNIT-IS-DONE]
adds_no_time() {
    mutant "clock: $1 adds no time" "/fn complete\\(/,/^    }/ s/self\\.clock\\.wrapping_add\\(self\\.time as u64\\)/self.clock.wrapping_add(if $2 { 0 } else { self.time as u64 })/; s/^        let interval_timer = match/        ${3:-}\\n&/" both
}
adds_no_time "STCK" 'unit.reading.is_some()'
adds_no_time "what is not STCK" 'unit.reading.is_none()'
adds_no_time "an interruption" 'interruption.is_some()'
adds_no_time "an SVC interruption" 'interruption == Some(SVC_INTERRUPTION)'
adds_no_time "a program interruption" 'interruption.is_some_and(|code| code != SVC_INTERRUPTION)'
adds_no_time "an operation exception" 'interruption == Some(OPERATION)'
adds_no_time "a protection exception" 'interruption == Some(PROTECTION)'
adds_no_time "an addressing exception" 'interruption == Some(ADDRESSING)'
adds_no_time "a specification exception" 'interruption == Some(SPECIFICATION)'
adds_no_time "an overflow" 'interruption == Some(FIXED_POINT_OVERFLOW)'
adds_no_time "a malformed PSW" 'malformed' 'let malformed = psw_is_malformed(self.record);'
adds_no_time "an interruption with a BC PSW" 'basic' 'let basic = form(self.record) == Form::Bc \&\& interruption.is_some();'
adds_no_time "LPSW" 'loaded' 'let loaded = interruption.is_none() \&\& self.record[PSW..PSW + 2] != unit.record[PSW..PSW + 2];'
adds_no_time "a branch" 'branches' 'let step = instruction_address(\&unit.record).wrapping_sub(instruction_address(self.record));\n        let branches = interruption.is_none() \&\& step != 2 \&\& step != 4;'
adds_no_time "a unit without a store" 'idle' 'let idle = unit.stores.is_empty();'
adds_no_time "a run's first unit" 'self.units == 0'
adds_no_time "a unit in which the word falls" 'interval_timer.is_some()'
mutant "clock: STCK after its unit's time" 's/instruction\(&view, &mut unit, self\.clock\)/instruction(\&view, \&mut unit, self.clock.wrapping_add(self.time as u64))/' both
mutant "clock: the run's first clock stored" '/fn complete\(/,/^    }/ s/self\.clock\.wrapping_add\(self\.time as u64\)/self.clock/' both
mutant "clock: rises by 1" '/fn complete\(/,/^    }/ s/self\.clock\.wrapping_add\(self\.time as u64\)/self.clock.wrapping_add(1)/' both
mutant "clock: rises by twice the time" '/fn complete\(/,/^    }/ s/self\.clock\.wrapping_add\(self\.time as u64\)/self.clock.wrapping_add(2 * self.time as u64)/' both
mutant "clock: time cut to 16 bits" '/fn complete\(/,/^    }/ s/self\.clock\.wrapping_add\(self\.time as u64\)/self.clock.wrapping_add(self.time as u16 as u64)/' both
mutant "clock: time cut to 20 bits" '/fn complete\(/,/^    }/ s/self\.clock\.wrapping_add\(self\.time as u64\)/self.clock.wrapping_add(self.time as u64 \& 0xF_FFFF)/' both
mutant "clock: stops at 2^64 - 1" '/fn complete\(/,/^    }/ s/self\.clock\.wrapping_add\(self\.time as u64\)/self.clock.saturating_add(self.time as u64)/' both
mutant "clock: wraps at 2^63" '/fn complete\(/,/^    }/ s/self\.clock\.wrapping_add\(self\.time as u64\)/self.clock.wrapping_add(self.time as u64) \& i64::MAX as u64/' both
mutant "clock: no carry into the left word" '/fn complete\(/,/^    }/ s/self\.clock\.wrapping_add\(self\.time as u64\)/(self.clock >> 32 << 32 | (self.clock as u32).wrapping_add(self.time) as u64)/' both
mutant "clock: epoch not added" '/^fn guest_clock/,/^}/ s/clock\.wrapping_add\(doubleword\(record, EPOCH\)\)/clock.wrapping_add(0 * doubleword(record, EPOCH))/' both
mutant "clock: epoch not added by STCK" 's/let value = guest_clock\(record, clock\)/let value = clock/' both
mutant "clock: epoch added twice" '/^fn guest_clock/,/^}/ s/clock\.wrapping_add\(doubleword\(record, EPOCH\)\)/&.wrapping_add(doubleword(record, EPOCH))/' both
mutant "clock: clock and epoch stop at 2^64 - 1" '/^fn guest_clock/,/^}/ s/wrapping_add/saturating_add/' both
mutant "clock: no carry from clock and epoch" '/^fn guest_clock/,/^}/ s/clock\.wrapping_add\(doubleword\(record, EPOCH\)\)/clock | doubleword(record, EPOCH)/' both
mutant "clock: whole microseconds stored" 's/let value = guest_clock\(record, clock\)/let value = guest_clock(record, clock) \& !0xFFF/' both
mutant "clock: last bit stored as one" 's/let value = guest_clock\(record, clock\)/let value = guest_clock(record, clock) | 1/' both
mutant "clock: an interception is a unit" '/^pub fn run\(/,/^}/ s/return Run \{ answer, units, /return Run { answer, units: units + matches!(answer, Answer::Intercepted(_)) as u32, /' both
mutant "clock: a host fault is a unit" '/^pub fn run\(/,/^}/ s/return Run \{ answer, units, /return Run { answer, units: units + matches!(answer, Answer::HostFault(..)) as u32, /' both
mutant "clock: stored up to a page that fails" '/Operation::StoreClock =>/,/^        }/ s/^            let places = view/            for offset in 0..8 {\n                match view.access(address.wrapping_add(offset), Access::Store) {\n                    Ok(place) => unit.store(\&[place], \&[guest_clock(record, clock).to_be_bytes()[offset as usize]]),\n                    Err(_) => break,\n                }\n            }\n&/; s/unit\.stores\.clear\(\);//' both

# Many units at a time: the plain instructions.
comparison=laps
mutant "laps: code of a difference that overflows by its sign" 's/return \(result, 3, true\)/return (result, if !subtract { 3 } else if (result as i32) < 0 { 1 } else { 2 }, true)/'
mutant "laps: code of a sum that overflows to zero is 0" 's/return \(result, 3, true\)/return (result, if result == 0 { 0 } else { 3 }, true)/'
mutant "laps: the least word's difference does not overflow" 's/if exact != result as i32 as i64 \{/if exact != result as i32 as i64 \&\& !(subtract \&\& exact == 1 << 31) {/'
mutant "laps: mask bits from the right" 's/first as u8 & \(8 >> condition_code\(record\)\)/first as u8 \& (1 << condition_code(record))/'
mutant "laps: BC PSW with addresses of 31 bits" 's/if psw_bit\(record, 32\) && !system_370\(record\)/if psw_bit(record, 32) \&\& !system_370(record) || form(record) == Form::Bc \&\& address >> 24 == 1/'
mutant "laps: no wrap from the last block to the first" '/^fn wrap/,/^}/ s/^    if /    if address == 0x0100_0000 { return address; }\n&/'
mutant "laps: LA without its index in 24-bit mode" '/Operation::LoadAddress =>/,/^        }/ s/address_rx\(record, text\)/if psw_bit(record, 32) { address_rx(record, text) } else { address_s(record, text) }/'
mutant "laps: code of the last sum kept over LPSW" '/Operation::LoadPsw => \{$/,/^        }/ s/^            set_doubleword\(.*/let code = condition_code(record);\n&\nset_condition_code(\&mut unit.record, code);/'
mutant "laps: code of the last sum in the old PSW of SVC is 0" 's/Operation::SupervisorCall => return Ok/Operation::SupervisorCall => { set_condition_code(\&mut unit.record, 0); return Ok/; s/SupervisorCall \{ number: text\[1\] \}\),/SupervisorCall { number: text[1] }); }/'
last_target='s/^pub fn run\(/thread_local! { static TARGETS: std::cell::RefCell<std::collections::BTreeMap<u32, u32>> = const { std::cell::RefCell::new(std::collections::BTreeMap::new()) }; }\nfn last_target(record: \&[u8], now: u32) -> u32 { TARGETS.with(|targets| *targets.borrow_mut().entry(instruction_address(record)).or_insert(now)) }\n&/; s/^    record\[RESULT_CODE\.\.66\]\.fill\(0\);/&\nTARGETS.with(|targets| targets.borrow_mut().clear());/'
mutant "laps: BCR goes where it went" "$last_target"'; s/set_instruction_address\(&mut unit\.record, general_register\(record, second\)\)/set_instruction_address(\&mut unit.record, last_target(record, general_register(record, second)))/'
mutant "laps: BC goes where it went" "$last_target"'; /Operation::BranchOnCondition =>/,/^        }/ s/address_rx\(record, text\)/last_target(record, address_rx(record, text))/'

# Timers, and what is charged.
mutant "laps: comparator due when equal" 's/self\.clock\) > comparator/self.clock) >= comparator/'
mutant "laps: timers looked at in every second unit" 's/^        let external = psw_bit\(record, 7\);/let external = psw_bit(record, 7) \&\& self.units % 2 == 0;/'
mutant "laps: timers not looked at from unit 16 on until an SVC" 's/^        let external = psw_bit\(record, 7\);/let external = psw_bit(record, 7) \&\& (self.units < 16 || !self.events.interruptions.is_empty());/'
mutant "laps: CPU timer charged once too often" '/fn complete\(/,/^    }/ s/TIMER\)\.wrapping_sub\(self\.time as u64\)/TIMER).wrapping_sub(self.time as u64 * (1 + (self.units == 20) as u64))/'
mutant "laps: clock charged once too seldom" '/fn complete\(/,/^    }/ s/self\.clock\.wrapping_add\(self\.time as u64\)/self.clock.wrapping_add(self.time as u64 * (self.units != 20) as u64)/'
mutant "laps: residue charged twice" 's/RESIDUE\) \+ 3 \* self\.time/RESIDUE) + 3 * self.time * (1 + (self.units == 20) as u32)/'
mutant "laps: word falls above 40,960,000 alone" 's/if residue < RESIDUE_LIMIT/if residue <= RESIDUE_LIMIT/'
mutant "laps: SPT leaves the timer's unit out" 's/set_doubleword\(&mut unit\.record, TIMER, doubleword\(&view\.fetch\(&places\), 0\)\)/set_doubleword(\&mut unit.record, TIMER, doubleword(\&view.fetch(\&places), 0).wrapping_add(1))/'

# Marks and protection.
mutant "laps: ST does not set the change bit" '/Operation::Store =>/,/^        }/ s/unit\.store\(&places, &general_register\(record, first\)\.to_be_bytes\(\)\)/unit.store(\&places, \&general_register(record, first).to_be_bytes()); unit.marks.iter_mut().for_each(|mark| mark.1 = false)/'
mutant "laps: L marks the first byte's frame alone" '/Operation::Load =>/,/^        }/ s/unit\.mark\(&places, false\)/unit.mark(\&places[..1], false)/'
mutant "laps: low-address protection not in an operand's second block" 's/places\.push\(self\.access\(address\.wrapping_add\(offset\), access\)\?\)/let mut record = self.record.to_vec(); if address % 2048 + offset >= 2048 { record[CONTROL_REGISTERS] \&= !0x10; } places.push(View { record: \&record, ..*self }.access(address.wrapping_add(offset), access)?)/'
mutant "laps: fetch protection of texts alone" 's/access == Access::Store \|\| storage_key & 0x08 != 0/access == Access::Store || storage_key \& 0x08 != 0 \&\& logical \& !7 == instruction_address(self.record) \& !7/'

# What a unit stores is seen one unit late.
late='s/^pub fn run\(/thread_local! { static LATE: std::cell::RefCell<Vec<(u32, u8)>> = const { std::cell::RefCell::new(Vec::new()) }; }\nfn earlier(storage: \&[u8], place: u32) -> u8 { LATE.with(|late| late.borrow().iter().find(|entry| entry.0 == place).map_or(storage[place as usize], |entry| entry.1)) }\n&/; s/^    record\[RESULT_CODE\.\.66\]\.fill\(0\);/&\nLATE.with(|late| late.borrow_mut().clear());/; s/^    let view = View \{ record, storage, keys, designation \};/LATE.with(|late| late.borrow_mut().clear());\n&/; s/^        self\.record\.copy_from_slice\(&unit\.record\);/&\nLATE.with(|late| *late.borrow_mut() = unit.stores.iter().map(|\&(place, _)| (place, self.storage[place as usize])).collect());/'
late_word='word(\&[0, 1, 2, 3].map(|n| earlier(self.storage, AT + n)), 0)'
mutant "laps: store into text seen one unit late" "$late"'; s/text\.extend\(view\.fetch\(&places\)\)/text.extend(places.iter().map(|\&place| earlier(view.storage, place)))/'
mutant "laps: store into an operand seen one unit late" "$late"'; /Operation::Load =>/,/^        }/ s/word\(&view\.fetch\(&places\), 0\)/word(\&places.iter().map(|\&place| earlier(view.storage, place)).collect::<Vec<u8>>(), 0)/'
mutant "laps: store into a host table seen one unit late" "$late; s/Ok\\(word\\(self\\.storage, address as usize\\)\\)/Ok($(echo "$late_word" | sed 's/AT/address/'))/"
mutant "laps: store into a guest table seen one unit late" "$late; s/Ok\\(word\\(self\\.storage, absolute as usize\\)\\)/Ok($(echo "$late_word" | sed 's/AT/absolute/'))/"

# The model keeps the translations of blocks, which changes nothing; each mutant keeps one where it must not.
kept='s/^pub fn run\(/#[derive(Default)]\nstruct Kept { blocks: std::collections::BTreeMap<(bool, u32), (u32, u32)>, named: std::collections::BTreeSet<u32>, quick: bool }\nthread_local! { static KEPT: std::cell::RefCell<Kept> = std::cell::RefCell::new(Kept::default()); }\n&/'
kept="$kept"'; s/^    record\[RESULT_CODE\.\.66\]\.fill\(0\);/&\nKEPT.with(|kept| *kept.borrow_mut() = Kept::default());/; s/^    let view = View \{ record, storage, keys, designation \};/KEPT.with(|kept| *kept.borrow_mut() = Kept::default());\n&/'
kept="$kept"'; s/^        let \(real, guest_protected\) = self\.guest_translate\(logical\)\?;/let store = access == Access::Store;\nlet entry = (store, logical \/ 2048 % 8);\nif let Some((first, place)) = KEPT.with(|kept| kept.borrow().blocks.get(\&entry).copied()) {\nif first == logical \/ 2048 * 2048 {\nKEPT.with(|kept| kept.borrow_mut().quick |= store);\nreturn Ok(place + logical % 2048);\n}\n}\n&/'
kept="$kept"'; /fn access\(/,/^    }/ s/^        Ok\(absolute\)/let marks = if store { 0x06 } else { 0x04 };\nlet named = KEPT.with(|kept| kept.borrow().named.contains(\&(absolute \/ 4096)));\nif storage_key \& marks == marks \&\& !(store \&\& named) {\nKEPT.with(|kept| kept.borrow_mut().blocks.insert(entry, (logical \/ 2048 * 2048, absolute \/ 2048 * 2048)));\n}\n&/'
kept="$kept"'; s/^        table\.entry = Some\(address\);/KEPT.with(|kept| kept.borrow_mut().named.insert(address \/ 4096));\n&/; s/^                table\.entry = Some\(real\);/KEPT.with(|kept| kept.borrow_mut().named.insert(absolute \/ 4096));\n&/'
kept="$kept"'; s/^        self\.record\.copy_from_slice\(&unit\.record\);/let old = \&*self.record;\nlet new = \&unit.record;\nlet dat = old[PSW] \& 0x04 != new[PSW] \& 0x04;\nlet key = old[PSW + 1] >> 4 != new[PSW + 1] >> 4;\nlet cr0 = old[72..76] != new[72..76];\nlet cr1 = old[76..80] != new[76..80];\nlet places = unit.stores.iter().map(|store| store.0).chain(interval_timer.iter().flatten().copied());\nlet mut frames: Vec<u32> = places.map(|place| place \/ 4096).collect();\nlet quick = KEPT.with(|kept| std::mem::take(\&mut kept.borrow_mut().quick));\nlet stored = KEPT.with(|kept| frames.drain(..).any(|frame| kept.borrow().named.contains(\&frame)));\nif dat || key || cr0 || cr1 || stored {\nKEPT.with(|kept| *kept.borrow_mut() = Kept::default());\n}\nlet _ = quick;\n&/'
equivalent "laps: blocks kept" "$kept"
mutant "laps: block kept over a change of DAT" "$kept"'; s/if dat \|\| key/if key/'
mutant "laps: block kept over a change of the key" "$kept"'; s/dat \|\| key \|\| cr0/dat || cr0/'
mutant "laps: block kept over a change of CR0" "$kept"'; s/key \|\| cr0 \|\| cr1/key || cr1/'
mutant "laps: block kept over a change of CR1" "$kept"'; s/cr0 \|\| cr1 \|\| stored/cr0 || stored/'
mutant "laps: block kept over a store into a guest table" "$kept"'; s/named\.insert\(absolute \/ 4096\)/named.contains(\&absolute)/'
mutant "laps: block kept over a store into a host table" "$kept"'; s/named\.insert\(address \/ 4096\)/named.contains(\&address)/'
mutant "laps: block kept over a store by an interruption" "$kept"'; s/cr1 \|\| stored \{/cr1 || stored \&\& interruption.is_none() {/'
mutant "laps: block kept over a fall of the interval timer's word in a table" "$kept"'; s/\.chain\(interval_timer\.iter\(\)\.flatten\(\)\.copied\(\)\)//'
mutant "laps: frames from 64 on not guarded" "$kept"'; s/contains\(&frame\)/contains(\&frame) \&\& frame < 64/'
mutant "laps: store block kept whose frame a later block is translated by" "$kept"'; s/cr1 \|\| stored \{/cr1 || stored \&\& !quick {/'
mutant "laps: store block kept in a frame that is guarded" "$kept"'; s/cr1 \|\| stored \{/cr1 || stored \&\& !quick {/; s/ && !\(store && named\)//'
mutant "laps: fetch block taken for stores" "$kept"'; s/let entry = \(store, logical/let entry = (false, logical/'
mutant "laps: block taken by its entry alone" "$kept"'; s/if first == logical \/ 2048 \* 2048 \{/if first != 1 {/'
mutant "laps: block taken by 15 bits of its address" "$kept"'; s/if first == logical \/ 2048 \* 2048 \{/if (first ^ logical) \& 0x7800 == 0 {/'
mutant "laps: low-address protection lost in a kept block" "$kept"'; s/^        if access == Access::Store && logical <= 511 /        if access == Access::Store \&\& logical <= 511 \&\& !KEPT.with(|kept| kept.borrow().blocks.get(\&(true, 0)).is_some_and(|block| block.0 == 0)) /'
mutant "laps: block kept without its marks, which are not made" "$kept"'; s/^        for \(frame, stored\) in unit\.marks \{/unit.marks.retain(|\&(frame, stored)| !KEPT.with(|kept| kept.borrow().blocks.iter().any(|(entry, block)| entry.0 == stored \&\& block.1 as usize \/ FRAME == frame)));\n&/; s/if storage_key & marks == marks && /if /'

# Many units at a time: SVC, LPSW, STCK, STPT, SPT, LCTL, STCTL and exceptions that interrupt.
mutant "laps: old PSW of SVC with the address of SVC" 's/^                let fields = \[0, 1 << 1, 0, number\];/&\nset_instruction_address(\&mut unit.record, instruction_address(\&before));/'
mutant "laps: fields stored beside a BC PSW" 's/^        fields = &\[\];//'
mutant "laps: no SVC code in an old BC PSW" 's/^        old_psw\[2\.\.4\]\.copy_from_slice\(&fields\[2\.\.4\]\);/if old == 40 {\n&\n}/'
mutant "laps: ILC of an old BC PSW as it was, but of SVC" 's/^        old_psw\[4\] = .*/if old == 32 {\n&\n}/'
mutant "laps: old PSW's form by the new PSW" '/^fn interrupt/,/^}/ s/form\(view\.record\) == Form::Bc/system_370(view.record) \&\& view.fetch(\&view.area(new, 8, Access::Fetch)?)[1] \& 0x08 == 0/'
mutant "laps: address of a translation exception not stored" 's/fields\.extend\(address\.to_be_bytes\(\)\);//'
mutant "laps: address of a page exception not cut" 's/let page_address = logical & 0x7FFF_F000/let page_address = logical \& 0x7FFF_F800/'
mutant "laps: page exception advances the address" 's/if code != SEGMENT_TRANSLATION && code != PAGE_TRANSLATION \{/if code != SEGMENT_TRANSLATION {/'
mutant "laps: protection exception leaves the address" 's/if code != SEGMENT_TRANSLATION && code != PAGE_TRANSLATION \{/if code != SEGMENT_TRANSLATION \&\& code != PAGE_TRANSLATION \&\& code != PROTECTION {/'
mutant "laps: privileged operation leaves the address" 's/if code != SEGMENT_TRANSLATION && code != PAGE_TRANSLATION \{/if code != SEGMENT_TRANSLATION \&\& code != PAGE_TRANSLATION \&\& code != PRIVILEGED_OPERATION {/'
mutant "laps: unassigned operation of three halfwords with ILC 2" 's/return exception\(OPERATION, ilc, 0, &text\)/return exception(OPERATION, ilc.min(2), 0, \&text)/'
mutant "laps: malformed PSW with ILC 1" 's/return self\.program_exception\(unit, SPECIFICATION, 0, 0, &\[\]\)/return self.program_exception(unit, SPECIFICATION, 1, 0, \&[])/'
mutant "laps: privilege after alignment" 's/if privileged && psw_bit\(record, 15\) \{/if privileged \&\& psw_bit(record, 15) \&\& !(operation == Operation::LoadPsw \&\& address_s(record, \&text) % 8 != 0) {/'
mutant "laps: SVC intercepted by its first number alone" 's/\(0\.\.3\)\.any/(0..1).any/'
mutant "laps: LCTL intercepted by its first register alone" 's/control_range\(text\)\.iter\(\)\.any\(/control_range(text).iter().take(1).any(/'
mutant "laps: LPSW not intercepted" 's/Operation::LoadPsw => record\[INTERCEPTION_CONTROLS\] & 0x20 != 0/Operation::LoadPsw => false/'
mutant "laps: code of the last sum kept over a new PSW" '/^fn interrupt/,/^}/ s/^    unit\.mark\(&new_places, false\);/&\nlet code = if form(view.record) == Form::Bc { old_psw[4] } else { old_psw[2] } >> 4 \& 3;\nset_condition_code(\&mut unit.record, code);/'
mutant "laps: STCK keeps the code of the last sum" '/Operation::StoreClock =>/,/^        }/ s/set_condition_code\(&mut unit\.record, 0\);//'
mutant "laps: key protection ignored for STCK" '/Operation::StoreClock =>/,/^        }/ s/view\.operand\(address, 8, Access::Store\)\?/{ let mut keyless = record.to_vec(); keyless[PSW + 1] \&= 0x0F; View { record: \&keyless, ..*view }.operand(address, 8, Access::Store)? }/'
mutant "laps: STCK over a block's end stores into the first" '/Operation::StoreClock =>/,/^        }/ s/unit\.store\(&places, &value\.to_be_bytes\(\)\)/unit.store(\&places[..places.iter().take_while(|place| *place \/ 2048 == places[0] \/ 2048).count()], \&value.to_be_bytes())/'
mutant "laps: LCTL over a block's end reads on in the first" '/Operation::LoadControl => \{$/,/^        }/ s/let bytes = view\.fetch\(&places\)/let bytes = view.fetch(\&places.iter().map(|place| places[0] \/ 2048 * 2048 + place % 2048).collect::<Vec<u32>>())/'
mutant "laps: LCTL keeps CR1 where it is not the first" 's/^                set_word\(&mut unit\.record, CONTROL_REGISTERS \+ 4 \* register, /if register == 1 \&\& n > 0 {\ncontinue;\n}\n&/'
mutant "laps: LCTL ends with 15" 's/^                set_word\(&mut unit\.record, CONTROL_REGISTERS \+ 4 \* register, /if register == 0 \&\& n > 0 {\nbreak;\n}\n&/'
mutant "laps: STCTL ends with 15" 's/^                unit\.store\(&places\[4 \* n\.\.4 \* n \+ 4\], /if register == 0 \&\& n > 0 {\nbreak;\n}\n&/'
mutant "laps: STPT after its unit's time" 's/^pub fn run\(/thread_local! { static TIME: std::cell::Cell<u32> = const { std::cell::Cell::new(0) }; }\n&/; s/^    let mut guest = Guest \{/TIME.with(|own| own.set(time));\n&/; s/doubleword\(record, TIMER\)\.to_be_bytes/doubleword(record, TIMER).wrapping_sub(TIME.with(|time| time.get()) as u64).to_be_bytes/'
mutant "laps: an interruption not charged to the CPU timer" '/fn complete\(/,/^    }/ s/TIMER\)\.wrapping_sub\(self\.time as u64\)/TIMER).wrapping_sub(self.time as u64 * interruption.is_none() as u64)/'
mutant "laps: an exception not charged to the clock" '/fn complete\(/,/^    }/ s/self\.clock\.wrapping_add\(self\.time as u64\)/self.clock.wrapping_add(self.time as u64 * interruption.is_none_or(|code| code == SVC_INTERRUPTION) as u64)/'
mutant "laps: residue of SVC not added" 's/^        let interval_timer = match self\.add_to_residue\(&mut unit\) \{/let residue = if interruption == Some(SVC_INTERRUPTION) { Ok(None) } else { self.add_to_residue(\&mut unit) };\n        let interval_timer = match residue {/'
mutant "laps: word does not fall in the unit of an exception" 's/^        if let Some\(places\) = interval_timer \{/        if let Some(places) = interval_timer.filter(|_| interruption.is_none_or(|code| code == SVC_INTERRUPTION)) {/'

# What an interruption finds and leaves in the prefix page.
mutant "laps: areas not prefixed" '/fn area_access/,/^    }/ s/self\.real_to_host\(real, Walk::Area\)/{ let mut record = self.record.to_vec(); record[PREFIX..PREFIX + 4].fill(0); View { record: \&record, ..*self }.real_to_host(real, Walk::Area) }/'
mutant "laps: areas where they were at the start of the run" "$snapshot"'; /fn area_access/,/^    }/ s/self\.real_to_host\(real, Walk::Area\)/START.with(|start| View { storage: \&start.borrow(), ..*self }.real_to_host(real, Walk::Area))/'
mutant "laps: new PSWs as at the start of the run" "$snapshot"'; /^fn interrupt/,/^}/ s/doubleword\(&view\.fetch\(&new_places\), 0\)/START.with(|start| doubleword(\&View { storage: \&start.borrow(), ..*view }.fetch(\&new_places), 0))/'
mutant "laps: areas not stored into with low-address protection" 's/^    unit\.store\(&old_places, &old_psw\);/if !bit(control_register(view.record, 0), 3) {\n&\n}/'
mutant "laps: areas not stored into by another key" 's/^    unit\.store\(&old_places, &old_psw\);/let key = view.record[PSW + 1] >> 4;\nif key == 0 || key == view.keys[old_places[0] as usize \/ FRAME] >> 4 {\n&\n}/'
mutant "laps: no change bit of the prefix page" 's/^    unit\.mark\(&new_places, false\);/unit.marks.iter_mut().for_each(|mark| mark.1 = false);\n&/'
mutant "laps: host protection of the prefix page ignored" '/fn area_access/,/^    }/ s/if access == Access::Store && host_protected/if false \&\& access == Access::Store \&\& host_protected/'
mutant "laps: store into a new PSW seen one unit late" "$late"'; /^fn interrupt/,/^}/ s/doubleword\(&view\.fetch\(&new_places\), 0\)/doubleword(\&new_places.iter().map(|\&place| earlier(view.storage, place)).collect::<Vec<u8>>(), 0)/'
mutant "laps: store into a PSW seen one unit late by LPSW" "$late"'; /Operation::LoadPsw => \{$/,/^        }/ s/doubleword\(&view\.fetch\(&places\), 0\)/doubleword(\&places.iter().map(|\&place| earlier(view.storage, place)).collect::<Vec<u8>>(), 0)/'
mutant "laps: store into a control register's value seen one unit late by LCTL" "$late"'; /Operation::LoadControl => \{$/,/^        }/ s/let bytes = view\.fetch\(&places\)/let bytes: Vec<u8> = places.iter().map(|\&place| earlier(view.storage, place)).collect()/'

# A part of the state is seen as it was one unit before. seen_late NAME SED-SCRIPT, where BEFORE is the record of that time.
before='s/^pub fn run\(/thread_local! { static BEFORE: std::cell::RefCell<Vec<u8>> = const { std::cell::RefCell::new(Vec::new()) }; }\n&/; s/^    record\[RESULT_CODE\.\.66\]\.fill\(0\);/&\nBEFORE.with(|before| *before.borrow_mut() = record.to_vec());/; s/^    let view = View \{ record, storage, keys, designation \};/BEFORE.with(|before| *before.borrow_mut() = record.to_vec());\n&/; s/^        self\.record\.copy_from_slice\(&unit\.record\);/BEFORE.with(|before| before.borrow_mut().copy_from_slice(self.record));\n&/'
seen_late() {
    mutant "laps: $1 seen one unit late" "$2; $before"
}
seen_late "a PSW's key by stores" 's/let access_key = self\.record\[PSW \+ 1\] >> 4;/let access_key = if access == Access::Store { BEFORE.with(|before| before.borrow()[PSW + 1]) } else { self.record[PSW + 1] } >> 4;/'
seen_late "a PSW's key by fetches" 's/let access_key = self\.record\[PSW \+ 1\] >> 4;/let access_key = if access == Access::Fetch { BEFORE.with(|before| before.borrow()[PSW + 1]) } else { self.record[PSW + 1] } >> 4;/'
seen_late "a PSW's DAT" 's/if system_370\(self\.record\) \|\| !psw_bit\(self\.record, 5\)/if system_370(self.record) || !BEFORE.with(|before| psw_bit(\&before.borrow(), 5))/'
seen_late "a PSW's problem state" 's/if privileged && psw_bit\(record, 15\)/if privileged \&\& BEFORE.with(|before| psw_bit(\&before.borrow(), 15))/'
seen_late "a PSW's overflow mask" 's/if overflow && overflow_is_enabled\(record\)/if overflow \&\& BEFORE.with(|before| overflow_is_enabled(\&before.borrow()))/'
seen_late "a PSW's external mask" 's/let external = psw_bit\(record, 7\)/let external = BEFORE.with(|before| psw_bit(\&before.borrow(), 7))/'
seen_late "a PSW's wait state" 's/^        if psw_bit\(record, 14\) \{/        if BEFORE.with(|before| psw_bit(\&before.borrow(), 14)) {/'
seen_late "a malformed PSW" 's/^        if psw_is_malformed\(record\) \{/        if BEFORE.with(|before| psw_is_malformed(\&before.borrow())) {/'
seen_late "CR0 by the list" 's/let control_register_0 = control_register\(record, 0\)/let control_register_0 = BEFORE.with(|before| control_register(\&before.borrow(), 0))/'
seen_late "CR0's low-address protection" 's/logical <= 511 && bit\(control_register\(self\.record, 0\), 3\)/logical <= 511 \&\& BEFORE.with(|before| bit(control_register(\&before.borrow(), 0), 3))/'
seen_late "CR0's format of DAT" 's/if control_register\(self\.record, 0\) >> 19/if BEFORE.with(|before| control_register(\&before.borrow(), 0)) >> 19/'
seen_late "CR1" 's/let designation = control_register\(self\.record, 1\)/let designation = BEFORE.with(|before| control_register(\&before.borrow(), 1))/'

# The timers are passed over in the unit after some. passed_over KIND PATTERN, which is of operation and interruption.
last='s/^pub fn check\(/thread_local! { static NOW: std::cell::Cell<Option<Operation>> = const { std::cell::Cell::new(None) }; static LAST: std::cell::Cell<(Option<Operation>, Option<u8>)> = const { std::cell::Cell::new((None, None)) }; }\n&/; s/^    record\[RESULT_CODE\.\.66\]\.fill\(0\);/&\nLAST.with(|last| last.set((None, None)));/; s/^        let form = form\(record\);/NOW.with(|now| now.set(None));\n&/; s/^    match execute\(view, unit, clock, operation, &text\) \{/NOW.with(|now| now.set(Some(operation)));\n&/; s/^        self\.record\.copy_from_slice\(&unit\.record\);/&\nLAST.with(|last| last.set((NOW.with(|now| now.take()), interruption)));/'
passed_over() {
    mutant "laps: timers passed over in the unit after $1" "$last; s/let external = psw_bit\\(record, 7\\);/let external = psw_bit(record, 7) \\&\\& !LAST.with(|last| matches!(last.get(), $2));/"
}
passed_over "SVC" '(_, Some(SVC_INTERRUPTION))'
passed_over "an exception" '(_, Some(1..=0x12))'
passed_over "LPSW" '(Some(Operation::LoadPsw), None)'
passed_over "LCTL" '(Some(Operation::LoadControl), None)'
passed_over "STCTL" '(Some(Operation::StoreControl), None)'
passed_over "SPT" '(Some(Operation::SetCpuTimer), None)'
passed_over "STPT" '(Some(Operation::StoreCpuTimer), None)'
passed_over "STCK" '(Some(Operation::StoreClock), None)'

# The model keeps the place of the prefix page too, which changes nothing.
areas="$kept"'; s/quick: bool \}/quick: bool, areas: Option<(u32, bool)> }/; /fn area_access/,/^    }/ s/self\.real_to_host\(real, Walk::Area\)\?;/match KEPT.with(|kept| kept.borrow().areas) {\nSome((page, protected)) => (page + real % 4096, protected),\nNone => self.real_to_host(real, Walk::Area)?,\n};\nKEPT.with(|kept| kept.borrow_mut().areas = Some((absolute \/ 4096 * 4096, host_protected)));/'
equivalent "laps: prefix page kept" "$areas"
# prefix_page_kept OVER CONDITION
prefix_page_kept() {
    mutant "laps: prefix page kept over $1" "$areas; s/stored \{\nKEPT\.with\(\|kept\| \*kept\.borrow_mut\(\) = Kept::default\(\)\);/stored {\nlet areas = KEPT.with(|kept| kept.borrow().areas).filter(|_| $2);\nKEPT.with(|kept| *kept.borrow_mut() = Kept { areas, ..Kept::default() });/"
}
prefix_page_kept "a store into a table" 'interruption.is_none()'
prefix_page_kept "a store by an interruption" 'interruption.is_some()'

# Blocks kept over stores into tables, over the PSW of an interruption, or over that of LPSW alone.
# kept_over_store INSTRUCTION OPERATION
kept_over_store() {
    mutant "laps: block kept over a store into a table by $1" "$last; $kept; s/cr1 \\|\\| stored \\{/cr1 || stored \\&\\& !matches!(NOW.with(|now| now.get()), Some(Operation::$2)) {/"
}
kept_over_store STCTL StoreControl
kept_over_store STCK StoreClock
kept_over_store STPT StoreCpuTimer
mutant "laps: block kept over the key of a new PSW" "$kept"'; s/dat \|\| key \|\| cr0/dat || key \&\& interruption.is_none() || cr0/'
mutant "laps: block kept over the DAT of a new PSW" "$kept"'; s/if dat \|\| key/if dat \&\& interruption.is_none() || key/'
mutant "laps: block kept over the key of LPSW's PSW" "$kept"'; s/dat \|\| key \|\| cr0/dat || key \&\& interruption.is_some() || cr0/'
mutant "laps: block kept over the DAT of LPSW's PSW" "$kept"'; s/if dat \|\| key/if dat \&\& interruption.is_some() || key/'
mutant "laps: block kept over a change of CR1's length" "$kept"'; s/let cr1 = old\[76\.\.80\] != new\[76\.\.80\]/let cr1 = old[76..79] != new[76..79]/'

echo "mutants: $total, caught $caught, missed $missed"
[ $missed -eq 0 ] && [ $total -gt 0 ]
