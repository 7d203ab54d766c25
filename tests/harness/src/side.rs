//! A side: a program that is given the same input as the others.

use std::io::Write;
use std::process::{Command, Stdio};
use std::thread;

/// A name and a command line.
pub struct Side {
    pub name: String,
    command: Vec<String>,
}

impl Side {
    /// A program with one argument.
    pub fn program(name: &str, path: &str, argument: &str) -> Side {
        Side {
            name: name.to_string(),
            command: vec![path.to_string(), argument.to_string()],
        }
    }

    /// A command line for the shell, which is its name too.
    pub fn shell(command: &str) -> Side {
        Side {
            name: command.to_string(),
            command: ["sh", "-c", command].map(String::from).to_vec(),
        }
    }

    /// What the program prints for an input. It must end with status 0.
    pub fn run(&self, input: &[u8]) -> Result<Vec<u8>, String> {
        let mut child = Command::new(&self.command[0])
            .args(&self.command[1..])
            .stdin(Stdio::piped())
            .stdout(Stdio::piped())
            .spawn()
            .map_err(|error| format!("does not start: {error}"))?;
        let stdin = child.stdin.take();
        let output = thread::scope(|scope| {
            scope.spawn(move || {
                // A program may end before it has read everything.
                stdin.map(|mut stdin| stdin.write_all(input))
            });
            child.wait_with_output()
        });
        let output = output.map_err(|error| format!("cannot be read: {error}"))?;
        if output.status.success() {
            Ok(output.stdout)
        } else {
            Err(format!("ended with {}", output.status))
        }
    }
}
