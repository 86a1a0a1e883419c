//! The files of a capture.

/// The file of each packet: how many packets came before each file.
#[derive(Clone, Debug, Default)]
pub struct Files {
    pub names: Vec<String>,
    pub starts: Vec<u64>,
}

impl Files {
    /// The number of the file that has a packet, from 1, and the packet's number in it.
    pub fn place(&self, packet: u64) -> (usize, u64) {
        match self.starts.partition_point(|start| *start < packet) {
            0 => (0, packet),
            file => (file, packet - self.starts[file - 1]),
        }
    }

    pub fn name(&self, file: usize) -> &str {
        file.checked_sub(1).and_then(|index| self.names.get(index)).map_or("", String::as_str)
    }
}

#[cfg(test)]
mod tests {
    use super::*;

    #[test]
    fn packets_are_numbered_in_each_file() {
        let files = Files { names: vec!["a".into(), "b".into(), "c".into()], starts: vec![0, 10, 10] };
        assert_eq!((files.place(1), files.place(10), files.place(11)), ((1, 1), (1, 10), (3, 1)));
        assert_eq!((files.name(3), files.name(0), files.name(4)), ("c", "", ""));
    }
}
