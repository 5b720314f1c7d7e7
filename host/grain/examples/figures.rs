use grain::{Format, Frame, Pair, Shape};

fn main() -> Result<(), Box<dyn std::error::Error>> {
    let shape = Shape::new(64, 48, 10, Format::Monochrome);
    let scan: Vec<u16> = (0..64 * 48u32).map(|i| 512 + (i * i % 11) as u16).collect();
    let frame = Frame::new(shape, &scan, &[], &[]);
    let mut clean = vec![0; scan.len()];
    grain::denoise_frame(&frame, &mut clean, &mut [], &mut [])?;
    let pair = Pair::new(frame, Frame::new(shape, &clean, &[], &[]))?;
    let sigma16 = grain::noise_estimate(&pair)?.luma.sigma16;
    println!("sigma {:.2} in 8-bit steps", sigma16 as f64 / 16.0);
    let fit = grain::fit_ar_lag(&pair, 1)?;
    println!("lag 1, in 64ths: {:?}", fit.map(|fit| fit.y));
    Ok(())
}
