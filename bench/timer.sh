# shellcheck shell=bash
# To be sourced: a program `timer` over some crates, in a folder of its own that goes when the script ends.

# begin_timer CRATE..: makes the folder with the repository's crates, and goes to the empty crate `timer`, which stands on these. What
# is below it alone is proved.
begin_timer() {
  local top crate part
  top="$(cd "$(dirname "${BASH_SOURCE[0]}")/.." && pwd)"
  lab="$(mktemp -d)"
  trap 'rm -rf "$lab"' EXIT
  touch "$lab/crates.txt"
  cd "$lab" || exit 1
  for crate in "$top"/crates/*/; do
    crate="$(basename "$crate")"
    mkdir -p "crates/$crate"
    for part in src specs proofs; do
      [ ! -d "$top/crates/$crate/$part" ] || cp -r "$top/crates/$crate/$part" "crates/$crate/"
    done
  done
  rt new crates/timer start_io >/dev/null 2>&1
  cp "$top/crates.txt" crates.txt
  echo "timer: $*" >>crates.txt
  cd crates/timer || exit 1
  rm -rf src/* specs proofs stdin stdout BUILD.bazel
}

# Proves and builds the timer, which is then out/timer.
build_timer() {
  echo "proving and building the timer" >&2
  rt run </dev/null >"$lab/build.log" 2>&1 || { tail -n 40 "$lab/build.log" | cut -c1-300 >&2; exit 1; }
}

# c_sample: writes a C text of nearly 1 MiB, the same lines again and again, to $lab/sample.c.
c_sample() {
  local sample='static struct measured_pair pair_table[2] = { { 1, 2 }, { 3, 4 } };
/* The sum of the products of the pairs that the table holds, from the first one on. */
static long sum_of_products(struct measured_pair *first_pair, int number_of_pairs)
{
  long running_total = 0x0;
  for (int index = 0; index < number_of_pairs; index++)
    running_total += first_pair[index].left * first_pair[index].right; // both are int
  printf("%d pairs, and their sum: %s\n", number_of_pairs, "not shown");
  return running_total == 1u ? running_total : -1;
}
'
  yes "$sample" | head -c 1048000 | sed '$d' >"$lab/sample.c"
}

# row FRONT PART COUNT END: a text up to the limit: what stands before, what is repeated how often, and what stands behind.
row() { printf '%s' "$1"; yes "$2" | head -n "$3" | tr -d '\n'; printf '%s' "$4"; }

# under_other_names: a program again and again up to the limit, each time with a number behind its own names; its typedef and its objects
# are 143 tokens.
under_other_names() {
  local k
  for k in $(seq 1 1830); do
    # shellcheck disable=SC2086 # a number
    printf 'typedef int T%d;\nextern int printf(const char *, ...);\nenum color%d { RED%d, GREEN%d = 5, BLUE%d };\nstruct pair%d { T%d left; T%d right; };\nstatic struct pair%d table%d[2] = { { 1, 2 }, { 3, 4 } };\nstatic T%d sum%d(struct pair%d *p, int n)\n{\n  T%d s = 0;\n  int i;\n  for (i = 0; i < n; i++)\n    s += p[i].left * p[i].right;\n  return s;\n}\nint main%d(void)\n{\n  long T%d = BLUE%d;\n  printf("%%d %%ld\\n", sum%d(table%d, 2), T%d);\n  return 0;\n}\n' $k $k $k $k $k $k $k $k $k $k $k $k $k $k $k $k $k $k $k $k
  done
}

# parsing: the beginning of a timer's main, which parses the file on standard input and goes on where it is a unit.
parsing() {
  cat <<'RT'
fn main(rt: HostRuntime) -> io::Result<()> {
    let mut text = Vec::new(rt.alloc());
    rt.stdin().read_to_end(&mut text)?;
    let file = text.as_slice();
    let Ok(tokens) = cr_tokens::read(rt.alloc(), file) else {
        return Ok(());
    };
    if !are_spans(file, tokens.list.as_slice()) {
        return Ok(());
    }
    let Ok(unit) = parse(rt.alloc(), file, &tokens) else {
        return Ok(());
    };
    if !are_spans(file, unit.tokens.list.as_slice()) {
        return Ok(());
    }
RT
}
