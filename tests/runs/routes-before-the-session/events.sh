# Thirty routes of different attributes, and then the session.
for i in $(seq 30); do echo "paths 10.0.$i.0/24 id=1 from=local nh=0.0.0.0 origin=igp as=- med=$i"; done
echo 'up p1'
echo 'sync'
