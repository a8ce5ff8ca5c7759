use std::thread;

fn main() -> std::io::Result<()> {
    let image = std::fs::read("../../samples/tool-base.vmdk")?;
    let thread = thread::Builder::new().stack_size(anhkhovet::STACK);
    let checked = thread.spawn(move || anhkhovet::check(&image))?.join();
    assert!(matches!(checked, Ok(Ok(_))));
    Ok(())
}
