ln -s /dev/full p1.1
