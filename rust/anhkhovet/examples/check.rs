use anhkhovet::Refusal;

fn main() -> std::io::Result<()> {
    let image = std::fs::read("../../samples/tool-base.vmdk")?;
    match anhkhovet::check(&image) {
        Ok(disk) => assert_eq!((disk.capacity, disk.grain_size), (2048, 128)),
        Err(refusal) => panic!("{refusal}"),
    }

    // Without its last sector the last grain is not whole.
    let cut = &image[..image.len() - 512];
    let refused = Refusal {
        number: 9,
        place: 1,
    };
    assert_eq!(anhkhovet::check(cut), Err(refused));
    assert_eq!(
        refused.to_string(),
        "refused 9 at grain 1: the grain runs past the end of the file"
    );
    Ok(())
}
