# Configurations and events of a fabric: what the benchmarks of whole runs share.

# config PEERS GROUPS COALESCE [med]: that many external peers, of so many groups: each but the first has a map of its own, which
# lets all through, and with `med` sets MULTI_EXIT_DISC.
config() {
    awk -v n="$1" -v groups="$2" -v coalesce="$3" -v sets="${4:-}" 'BEGIN {
        printf "[local]\nas = 65001\nrouter_id = \"10.255.0.1\"\ncoalesce = %d\n", coalesce
        for (i = 1; i < groups; i++) {
            printf "\n[[route_map]]\nname = \"m%d\"\nentry = [{ seq = 10, action = \"permit\"%s }]\n", i, sets == "" ? "" : ", set_med = " i
            printf "\n[[policy]]\nname = \"m%d\"\nroute_map = \"m%d\"\n", i, i
        }
        for (i = 1; i <= n; i++) {
            printf "\n[[peer]]\nname = \"p%d\"\nas = %d\nrouter_id = \"10.200.%d.2\"\naddress = \"10.200.%d.2\"\nlocal_address = \"10.200.%d.1\"\nsubnet = \"10.200.%d.0/24\"\n", i, 65100 + i, i, i, i, i
            if (i % groups > 0) printf "policy = \"m%d\"\n", i % groups
        } }'
}

# events PREFIXES PEERS ORDER: the routes, ten an attribute set, with the sessions of all peers before or after them. With
# KEYS=random the prefixes come in random order, and ten lines in a row have one attribute set; with KEYS=scattered the same
# lines come in sorted order; with KEYS=shuffled those come in random order of which ten in a row have one in sorted order.
events() {
    awk -v n="$1" -v peers="$2" -v order="$3" -v keys="${KEYS:-sorted}" '
        function sessions(  i) { for (i = 1; i <= peers; i++) printf "up p%d\n", i }
        function shuffle(  i, j, kept) {
            srand(7)
            for (i = 0; i < n; i++) number[i] = i
            for (i = n - 1; i > 0; i--) {
                j = int(rand() * (i + 1))
                kept = number[i]
                number[i] = number[j]
                number[j] = kept
            }
        }
        BEGIN {
            if (keys != "sorted") shuffle()
            for (i = 0; i < n; i++) place[number[i]] = i
            if (order == "after") sessions()
            for (i = 0; i < n; i++) {
                k = keys == "sorted" || keys == "scattered" ? i : number[i]
                set = keys == "shuffled" ? k : keys == "scattered" ? place[i] : i
                printf "paths %d.%d.%d.0/24 id=1 from=local nh=0.0.0.0 origin=igp as=- med=%d\n", 20 + int(k / 65536), int(k / 256) % 256, k % 256, int(set / 10)
            }
            if (order == "before") sessions()
        }'
}
