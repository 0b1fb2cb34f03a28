# The device of the message lines is full; the build after it is as ever.
package . a
file src/lib.rs
pb_tool build 2> said > /dev/full
echo "status $?"
cat said
build
