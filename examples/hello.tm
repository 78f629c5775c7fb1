module hello;

# Puts H and a line feed.
routine main()
    put_byte(72);
    put_byte(10);
end
end
