# Read by build.sh here, compare/run.sh and bench/run.sh, with $root the repository: names the folder of utp-rs (UTP_RS_SRC, default
# ../shared/docs/src beside the repository) and makes the one edit that document 01 names, Instant::now() in congestion.rs replaced by the
# given now, into target/oracle (ORACLE_BUILD).
UTP_RS_SRC=$(cd "${UTP_RS_SRC:-$root/../shared/docs/src}" && pwd)
ORACLE_BUILD=$root/target/oracle
mkdir -p "$ORACLE_BUILD"
sed 's/Instant::now() >=/crate::clock::given_now() >=/' "$UTP_RS_SRC/src/congestion.rs" > "$ORACLE_BUILD/congestion.rs"
if [ "$(diff "$UTP_RS_SRC/src/congestion.rs" "$ORACLE_BUILD/congestion.rs" | grep -c '^>')" != 1 ] ||
    grep -q 'Instant::now()' "$ORACLE_BUILD/congestion.rs"; then
    echo "edit.sh: congestion.rs is not the file this driver was made for" >&2
    exit 1
fi
export UTP_RS_SRC ORACLE_BUILD
