ln -s /dev/full p2.1
mkdir p1.1
