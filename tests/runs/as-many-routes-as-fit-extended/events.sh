# 16,373 routes of four bytes fill a message of 65,535 bytes.
awk 'BEGIN { for (i = 0; i < 16374; i++) printf "paths 10.%d.%d.0/24 id=1 from=local nh=0.0.0.0 origin=igp as=-\n", int(i / 256), i % 256 }'
echo 'up p1'
echo 'sync'
