# Diagnostics, and what a script warns of, as text on standard error. The lines are the same.
package . a
file build.rs 'print cargo::warning=well'
file src/lib.rs 'warn so' 'fail no'
pb_tool build --runner "$RUSTC --run" > plain 2> said
echo "status $?"
cat said
pb_tool build --runner "$RUSTC --run" --render > shown 2> said
echo "status $?"
cat said
sed 's/"fresh":true/"fresh":false/' shown | cmp - plain && echo the same lines
