//! A browser that is driven over a pipe, with its own protocol: keys are pressed as a person's are.

pub mod json;

use std::io::{BufRead, BufReader, Write};
use std::os::unix::fs::MetadataExt;
use std::path::{Path, PathBuf};
use std::process::{Child, ChildStdin, ChildStdout, Command, Stdio};
use std::sync::{Arc, Mutex};
use std::time::Duration;

use json::{quoted, Json};

/// After so long without an end the browser is stopped, and the test fails.
const PATIENCE: Duration = Duration::from_secs(1200);

pub struct Browser {
    child: Arc<Mutex<Child>>,
    input: ChildStdin,
    output: BufReader<ChildStdout>,
    session: String,
    last: u64,
    folder: PathBuf,
}

impl Browser {
    /// Starts the browser of this name with an empty page.
    pub fn start(program: &str) -> Browser {
        let name = format!("gk-screen-browser-{}-{:?}", std::process::id(), std::thread::current().id());
        let folder = std::env::temp_dir().join(name);
        std::fs::create_dir_all(&folder).expect("a folder for the browser");
        // The protocol goes over descriptors 3 and 4, which the shell takes from the pipes of 0 and 1.
        let mut command = Command::new("sh");
        command
            .args(["-c", "exec \"$0\" \"$@\" 3<&0 4>&1 </dev/null >/dev/null", program])
            .args([
                "--headless",
                "--remote-debugging-pipe",
                "--disable-gpu",
                "--no-first-run",
                "--hide-scrollbars",
            ])
            .args(["--disable-dev-shm-usage", "--disable-extensions", "--disable-background-networking"])
            .arg(format!("--user-data-dir={}", folder.display()))
            .stdin(Stdio::piped())
            .stdout(Stdio::piped())
            .stderr(Stdio::null());
        if std::fs::metadata("/proc/self").is_ok_and(|data| data.uid() == 0) {
            command.arg("--no-sandbox");
        }
        let mut child = command.spawn().expect("the browser starts");
        let input = child.stdin.take().expect("its input");
        let output = BufReader::new(child.stdout.take().expect("its output"));
        let child = Arc::new(Mutex::new(child));
        let watched = Arc::downgrade(&child);
        std::thread::spawn(move || {
            std::thread::sleep(PATIENCE);
            if let Some(child) = watched.upgrade() {
                let _ = child.lock().expect("the browser").kill();
            }
        });
        let mut browser = Browser { child, input, output, session: String::new(), last: 0, folder };
        let target = browser.ask("Target.createTarget", "{\"url\":\"about:blank\"}");
        let target = quoted(target.get("targetId").text());
        let session =
            browser.ask("Target.attachToTarget", &format!("{{\"targetId\":{target},\"flatten\":true}}"));
        browser.session = session.get("sessionId").text().to_string();
        for domain in ["Page.enable", "Runtime.enable", "Log.enable"] {
            browser.ask(domain, "{}");
        }
        browser
    }

    /// Asks something of the browser and waits for its answer.
    pub fn ask(&mut self, method: &str, parameters: &str) -> Json {
        self.last += 1;
        let session = match self.session.as_str() {
            "" => String::new(),
            session => format!(",\"sessionId\":{}", quoted(session)),
        };
        let message =
            format!("{{\"id\":{},\"method\":\"{method}\",\"params\":{parameters}{session}}}\0", self.last);
        self.input.write_all(message.as_bytes()).expect("the browser listens");
        loop {
            let answer = self.hear();
            if answer.get("id").number() == Some(self.last as f64) {
                assert_eq!(answer.get("error"), &Json::Null, "{method}");
                return answer.get("result").clone();
            }
        }
    }

    /// The next thing that the browser says. A fault of the page's script, or a request to the outside, fails the test.
    fn hear(&mut self) -> Json {
        let mut bytes = Vec::new();
        self.output.read_until(0, &mut bytes).expect("the browser speaks");
        assert_eq!(
            bytes.pop(),
            Some(0),
            "the browser has ended, or was stopped after {} s",
            PATIENCE.as_secs()
        );
        let said = Json::read(&String::from_utf8_lossy(&bytes)).expect("JSON");
        match said.get("method").text() {
            "Runtime.exceptionThrown" | "Log.entryAdded" => panic!("the page: {said:?}"),
            _ => said,
        }
    }

    /// Opens a page and waits until it is there.
    pub fn open(&mut self, path: &Path, fragment: &str) {
        self.open_address(&format!("file://{}{fragment}", path.display()));
    }

    /// The same, by an address.
    pub fn open_address(&mut self, address: &str) {
        // From a page to itself with another fragment the browser would not load it anew.
        for url in ["about:blank", address] {
            self.ask("Page.navigate", &format!("{{\"url\":{}}}", quoted(url)));
            while self.value("document.readyState + ' ' + location.protocol").text()
                != format!("complete {}", &url[..url.find(':').unwrap_or(0) + 1])
            {
                std::thread::sleep(Duration::from_millis(10));
            }
        }
    }

    /// The value of an expression in the page.
    pub fn value(&mut self, expression: &str) -> Json {
        let parameters = format!("{{\"expression\":{},\"returnByValue\":true}}", quoted(expression));
        let answer = self.ask("Runtime.evaluate", &parameters);
        assert_eq!(answer.get("exceptionDetails"), &Json::Null, "{expression}");
        answer.get("result").get("value").clone()
    }

    /// Presses a key and lets it go.
    pub fn press(&mut self, key: &str, code: u32, shift: bool) {
        let modifiers = if shift { 8 } else { 0 };
        let text = if key.len() == 1 { format!(",\"text\":{}", quoted(key)) } else { String::new() };
        let key =
            format!("\"key\":{},\"windowsVirtualKeyCode\":{code},\"modifiers\":{modifiers}", quoted(key));
        self.ask("Input.dispatchKeyEvent", &format!("{{\"type\":\"keyDown\",{key}{text}}}"));
        self.ask("Input.dispatchKeyEvent", &format!("{{\"type\":\"keyUp\",{key}}}"));
    }
}

impl Drop for Browser {
    fn drop(&mut self) {
        if let Ok(mut child) = self.child.lock() {
            let _ = child.kill();
            let _ = child.wait();
        }
        let _ = std::fs::remove_dir_all(&self.folder);
    }
}
