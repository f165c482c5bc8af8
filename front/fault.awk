# Says why the reader would refuse a frame, with a status that is not 0. Needs hex.awk, names.awk and frames.awk.
frame_fault($0) { print fault_reason; exit 1 }
