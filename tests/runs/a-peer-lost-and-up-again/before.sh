ln -s /dev/full p2.1
ln -s /dev/full p2.2
ln -s /dev/full p1.2
