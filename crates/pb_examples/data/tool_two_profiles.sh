# Two words that do not go together: nothing is printed but what is wrong.
package . a
file src/lib.rs
pb_tool build --release --profile dev 2> said
echo "status $?"
head -n 1 said
