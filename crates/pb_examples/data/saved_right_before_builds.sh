# Each build right after a save builds the saved file again, and the next one nothing.
package . a
file src/lib.rs '# first'
pb_tool build > lines
for number in $(seq 20); do
    file src/lib.rs "# edit $number"
    pb_tool build --explain 2>> said > lines
    pb_tool build --explain 2>> said > lines
done
sort said | uniq -c | sed 's/^ *//'
