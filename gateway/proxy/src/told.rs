//! What the log is told once, though it is the same again and again.

/// What was told last.
#[derive(Debug, Default)]
pub struct Told(Option<String>);

impl Told {
    /// Warns, unless it was told last.
    pub fn warn(&mut self, text: &str) {
        if self.0.as_deref() != Some(text) {
            tracing::warn!("{text}");
            self.0 = Some(text.to_owned());
        }
    }

    /// It is over: the next time it is told again.
    pub fn forget(&mut self) {
        self.0 = None;
    }
}
